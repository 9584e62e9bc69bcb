//! The rules paper's own example and its edges a to l, each as a small
//! capture with the text worked out by hand.

mod common;

use common::*;
use peer::capture::Kind;

#[test]
fn the_example_of_seven_lines() {
    Capture::new()
        .open(0, 0)
        .report()
        .tick(3_000_000)
        .report()
        .tick(3_000_001)
        .report()
        .call(Kind::Receive, 3_000_001, 101, &[])
        .prints(&[
            "1 0",
            "2 0 1 0 0 0 0 0 0",
            "3 0",
            "4 0 1 0 0 0 0 0 0",
            "5 0",
            "6 0 1 0 1 1 0 0 0",
            "7 2",
        ]);
}

#[test]
fn a_no_loss_at_the_detection_time() {
    Capture::new()
        .open(0, 0)
        .tick(3_000_000)
        .report()
        .prints(&["1 0", "2 0", "3 0 1 0 0 0 0 0 0"]);
}

#[test]
fn b_loss_one_after_the_detection_time() {
    Capture::new()
        .open(0, 0)
        .tick(3_000_001)
        .report()
        .prints(&["1 0", "2 0", "3 0 1 0 1 1 0 0 0"]);
}

#[test]
fn c_blocked_one_before_the_crossing_ends() {
    // The loss since 3,000,001 shows as well.
    Capture::new()
        .open(0, 0)
        .receive(0, &cv(DOWN, DISCRIMINATOR, CROSSED))
        .report()
        .tick(3_499_999)
        .report()
        .prints(&[
            "1 0",
            "2 0",
            "3 0 1 1 0 0 0 1 0",
            "4 0",
            "5 0 1 1 1 1 0 1 0",
        ]);
}

#[test]
fn d_free_when_the_crossing_ends() {
    Capture::new()
        .open(0, 0)
        .receive(0, &cv(DOWN, DISCRIMINATOR, CROSSED))
        .tick(3_500_000)
        .report()
        .prints(&["1 0", "2 0", "3 0", "4 0 1 0 1 1 0 0 0"]);
}

#[test]
fn e_alarm_held_back_one_before_the_condition_lapses() {
    Capture::new()
        .open(0, 0)
        .receive(0, &fault(AIS, 0, 1, &[]))
        .tick(3_499_999)
        .report()
        .prints(&["1 0", "2 0", "3 0", "4 0 1 0 1 0 0 0 1"]);
}

#[test]
fn f_alarm_when_the_condition_lapses() {
    Capture::new()
        .open(0, 0)
        .receive(0, &fault(AIS, 0, 1, &[]))
        .tick(3_500_000)
        .report()
        .prints(&["1 0", "2 0", "3 0", "4 0 1 0 1 1 0 0 0"]);
}

#[test]
fn g_state_down_after_a_loss_gives_init() {
    // The loss takes UP to DOWN first; then DOWN leads from DOWN to INIT.
    Capture::new()
        .open(0, 0)
        .receive(0, &cc(INIT, DISCRIMINATOR))
        .report()
        .receive(3_000_001, &cc(DOWN, DISCRIMINATOR))
        .report()
        .prints(&[
            "1 0",
            "2 0",
            "3 0 3 0 0 0 0 0 0",
            "4 0",
            "5 0 2 0 0 0 0 0 0",
        ]);
}

#[test]
fn h_state_down_without_a_loss_gives_down() {
    // A received state took it down: the CC written says diagnostic 3.
    Capture::new()
        .open(0, 0)
        .receive(0, &cc(INIT, DISCRIMINATOR))
        .receive(3_000_000, &cc(DOWN, DISCRIMINATOR))
        .report()
        .write_cc()
        .prints(&[
            "1 0",
            "2 0",
            "3 0",
            "4 0 1 0 0 0 0 0 0",
            "5 0 10000022234003180000001100000005000f4240000f424000000000",
        ]);
}

#[test]
fn i_cc_without_your_discriminator() {
    // Refused with state INIT or UP, heard with DOWN or ADMIN DOWN.
    Capture::new()
        .open(0, 0)
        .receive(0, &cc(UP, 0))
        .receive(0, &cc(INIT, 0))
        .report()
        .receive(0, &cc(DOWN, 0))
        .report()
        .receive(0, &cc(ADMIN_DOWN, 0))
        .report()
        .prints(&[
            "1 0",
            "2 6 12",
            "3 6 12",
            "4 0 1 0 0 0 0 0 0",
            "5 0",
            "6 0 2 0 0 0 0 0 0",
            "7 0",
            "8 0 1 0 0 0 0 0 0",
        ]);
}

#[test]
fn j_cv_without_your_discriminator_is_heard() {
    // It restarts the detection time: no loss three seconds later.
    Capture::new()
        .open(0, 0)
        .receive(2_000_000, &cv(UP, 0, EXPECTED))
        .tick(5_000_000)
        .report()
        .tick(5_000_001)
        .report()
        .prints(&[
            "1 0",
            "2 0",
            "3 0",
            "4 0 1 0 0 0 0 0 0",
            "5 0",
            "6 0 1 0 1 1 0 0 0",
        ]);
}

#[test]
fn k_cc_written_at_the_opening() {
    Capture::new().open(0, 0).write_cc().prints(&[
        "1 0",
        "2 0 10000022204003180000001100000000000f4240000f424000000000",
    ]);
}

#[test]
fn l_a_closed_place_serves_again() {
    for first in [1_000, 501_000] {
        let mut capture = Capture::new();
        let mut expected = String::new();
        for number in 0..32 {
            capture = capture.open_other(0, first + number, 1 + number);
            expected += &format!("{} 0\n", number + 1);
        }
        capture = capture
            .open_other(0, first + 1_000, 500)
            .call(Kind::Close, 0, first + 30, &[])
            .open_other(0, first + 1_000, 500)
            .open_other(0, first + 1_001, 501)
            .call(Kind::Report, 0, first + 30, &[])
            .call(Kind::Report, 0, first + 1_000, &[]);
        expected += "33 12\n34 0\n35 0\n36 12\n37 2\n38 0 1 0 0 0 0 0 0\n";
        assert_eq!(capture.text(), expected);
    }
}
