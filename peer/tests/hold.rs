//! A defective session is held down: while a crossing or a followed condition
//! stands, a received state counts no more than TIMER would.

mod common;

use common::*;

const LINK_DOWN: u8 = 2;
const CLEAR: u8 = 1;

/// The report of a session crossed at 1,000,000 that then receives a CC of
/// this state at a reading.
fn behind_crossing(state: u8, time: u64) -> String {
    let text = Capture::new()
        .open(0, 0)
        .receive(1_000_000, &cv(DOWN, 0, CROSSED))
        .receive(time, &cc(state, DISCRIMINATOR))
        .report()
        .text();
    text.lines().nth(3).unwrap().to_string()
}

#[test]
fn a_crossing_holds_at_each_reading_at_which_it_stands() {
    for state in [ADMIN_DOWN, DOWN, INIT, UP] {
        for time in [1_000_000, 1_000_001, 4_499_999] {
            assert_eq!(behind_crossing(state, time), "4 0 1 1 0 0 0 1 0");
        }
    }
    assert_eq!(behind_crossing(INIT, 4_500_000), "4 0 3 0 0 0 0 0 0");
    assert_eq!(behind_crossing(DOWN, 4_500_000), "4 0 2 0 0 0 0 0 0");
    assert_eq!(behind_crossing(UP, 4_500_000), "4 0 1 0 0 0 0 0 0");
}

/// The report of a session with these marks that takes a fault message at 1
/// and receives a CC of state INIT at a reading.
fn behind_fault(marks: u8, message: &[u8], time: u64) -> String {
    let text = Capture::new()
        .open(0, marks)
        .receive(1, message)
        .receive(time, &cc(INIT, DISCRIMINATOR))
        .report()
        .text();
    text.lines().nth(3).unwrap().to_string()
}

#[test]
fn a_followed_condition_holds_at_each_reading_at_which_it_stands() {
    for (marks, kind) in [(1, AIS), (2, LKR), (3, AIS), (3, LKR)] {
        let message = fault(kind, LINK_DOWN, 1, &interface(1));
        for time in [1, 2, 3_500_000] {
            assert_eq!(behind_fault(marks, &message, time), "4 0 1 0 0 0 0 0 1");
        }
        assert_eq!(
            behind_fault(marks, &message, 3_500_001),
            "4 0 3 0 0 0 0 0 0"
        );
    }
}

#[test]
fn a_condition_that_is_not_followed_holds_nothing() {
    for (marks, kind, flags) in [
        (0, AIS, LINK_DOWN),
        (2, AIS, LINK_DOWN),
        (1, AIS, 0),
        (0, LKR, 0),
        (1, LKR, LINK_DOWN),
    ] {
        let message = fault(kind, flags, 1, &[]);
        assert_eq!(behind_fault(marks, &message, 2), "4 0 3 0 0 0 0 0 1");
    }
}

#[test]
fn the_last_message_of_a_key_says_whether_it_holds() {
    Capture::new()
        .open(0, 1)
        .receive(1, &fault(AIS, LINK_DOWN, 20, &[]))
        .receive(3, &fault(AIS, 0, 1, &[]))
        .receive(4, &cc(INIT, DISCRIMINATOR))
        .report()
        .receive(5, &fault(AIS, LINK_DOWN, 20, &[]))
        .receive(5, &fault(AIS, CLEAR, 20, &[]))
        .receive(5, &cc(INIT, DISCRIMINATOR))
        .report()
        .prints(&[
            "1 0",
            "2 0",
            "3 0",
            "4 0",
            "5 0 3 0 0 0 0 0 1",
            "6 0",
            "7 0",
            "8 0",
            "9 0 3 0 0 0 0 0 0",
        ]);
}

#[test]
fn all_but_the_state_is_taken() {
    // Diagnostic 1, P, multiplier 1 and another My.
    let mut told = cc(INIT, DISCRIMINATOR);
    told[4] = 0x21;
    told[5] |= 0x20;
    told[6] = 1;
    told[11] = 9;
    Capture::new()
        .open(0, 1)
        .receive(1, &fault(AIS, LINK_DOWN, 1, &[]))
        .tick(3_000_001)
        .report()
        .receive(3_000_001, &told)
        .report()
        .write_cc()
        .tick(4_000_001)
        .report()
        .tick(4_000_002)
        .report()
        .prints(&[
            "1 0",
            "2 0",
            "3 0",
            "4 0 1 0 1 0 0 0 1",
            "5 0",
            "6 0 1 0 0 0 1 0 1",
            "7 0 10000022255003180000001100000009000f4240000f424000000000",
            "8 0",
            "9 0 1 0 0 0 1 0 0",
            "10 0",
            "11 0 1 0 1 1 0 0 0",
        ]);
}

#[test]
fn a_diagnostic_3_lives_on_and_none_is_given() {
    Capture::new()
        .open(0, 0)
        .receive(0, &cc(INIT, DISCRIMINATOR))
        .receive(0, &cc(DOWN, DISCRIMINATOR))
        .receive(1, &cc(UP, 99))
        .receive(2, &cc(INIT, DISCRIMINATOR))
        .receive(3_000_000, &cv(UP, 0, EXPECTED))
        .tick(3_500_001)
        .write_cc()
        .receive(3_500_001, &cc(INIT, DISCRIMINATOR))
        .receive(3_500_001, &cc(UP, 99))
        .receive(3_500_001, &cc(DOWN, DISCRIMINATOR))
        .receive(6_500_000, &cc(ADMIN_DOWN, DISCRIMINATOR))
        .tick(7_000_001)
        .write_cc()
        .prints(&[
            "1 0",
            "2 0",
            "3 0",
            "4 0",
            "5 0",
            "6 0",
            "7 0",
            "8 0 10000022234003180000001100000005000f4240000f424000000000",
            "9 0",
            "10 0",
            "11 0",
            "12 0",
            "13 0",
            "14 0 10000022204003180000001100000005000f4240000f424000000000",
        ]);
}

#[test]
fn an_unlock_does_not_end_the_hold() {
    Capture::new()
        .open(0, 2)
        .receive(0, &fault(LKR, 0, 1, &[]))
        .lock(1)
        .receive(1, &cc(INIT, DISCRIMINATOR))
        .unlock(2)
        .receive(3, &cc(INIT, DISCRIMINATOR))
        .report()
        .receive(3_500_000, &cc(INIT, DISCRIMINATOR))
        .report()
        .prints(&[
            "1 0",
            "2 0",
            "3 0",
            "4 14",
            "5 0",
            "6 0",
            "7 0 1 0 0 0 0 0 1",
            "8 0",
            "9 0 3 0 0 0 0 0 0",
        ]);
}
