//! Further rules of the paper: refusals and their order, how a session moves,
//! how long each thing stands, what is written.

mod common;

use common::*;
use peer::capture::{open_body, Kind};

/// The number of the answer to a message received at 0 by the usual session;
/// `tests/places.rs` asks for what stands behind it.
fn answer(message: &[u8]) -> String {
    let text = Capture::new().open(0, 3).receive(0, message).text();
    let line = text.lines().nth(1).unwrap();
    line.split(' ').nth(1).unwrap().to_string()
}

fn changed(mut message: Vec<u8>, at: usize, value: u8) -> Vec<u8> {
    message[at] = value;
    message
}

#[test]
fn channel_header() {
    assert_eq!(answer(&[]), "3");
    assert_eq!(answer(&[0x20, 0, 0]), "3");
    assert_eq!(answer(&[0x20, 0, 0, 0]), "4");
    assert_eq!(answer(&changed(cc(DOWN, 0), 0, 0x11)), "4");
    assert_eq!(answer(&changed(cc(DOWN, 0), 0, 0x00)), "4");
    assert_eq!(answer(&changed(cc(DOWN, 0), 1, 0xff)), "0");
    assert_eq!(answer(&[0x10, 0, 0, 0x21]), "5");
    assert_eq!(answer(&changed(cc(DOWN, 0), 2, 1)), "5");
}

#[test]
fn bfd_reception() {
    let good = cc(DOWN, DISCRIMINATOR);
    assert_eq!(answer(&good), "0");
    assert_eq!(answer(&good[..27]), "3");
    assert_eq!(answer(&changed(good.clone(), 4, 0x00)), "6");
    assert_eq!(answer(&changed(good.clone(), 4, 0x40)), "6");
    assert_eq!(answer(&changed(good.clone(), 5, 0x44)), "6");
    assert_eq!(answer(&changed(good.clone(), 5, 0x41)), "6");
    assert_eq!(answer(&changed(good.clone(), 5, 0x7a)), "0");
    assert_eq!(answer(&changed(good.clone(), 6, 0)), "6");
    assert_eq!(answer(&changed(good.clone(), 7, 23)), "6");
    assert_eq!(answer(&changed(good.clone(), 7, 25)), "3");
    assert_eq!(answer(&changed(good.clone(), 11, 0)), "6");
    let mut longer = changed(good, 7, 25);
    longer.push(0xff);
    assert_eq!(answer(&longer), "0");
}

#[test]
fn connectivity_verification() {
    let good = cv(UP, DISCRIMINATOR, EXPECTED);
    assert_eq!(answer(&good), "0");
    assert_eq!(answer(&good[..43]), "3");
    assert_eq!(answer(&changed(good.clone(), 29, 2)[..43]), "7");
    assert_eq!(answer(&changed(good.clone(), 29, 2)), "7");
    assert_eq!(answer(&changed(good.clone(), 28, 1)), "7");
    assert_eq!(answer(&changed(good.clone(), 31, 13)), "7");
    assert_eq!(answer(&changed(good.clone(), 6, 0)[..43]), "6");
    // The MEP-ID part starts after Length octets.
    let mut longer = changed(good.clone(), 7, 26);
    longer.splice(28..28, [9, 9]);
    assert_eq!(answer(&longer), "0");
    // Two octets of it are read as its type and length: 0x000c, 0x0202.
    assert_eq!(answer(&changed(good, 7, 26)), "7");
}

#[test]
fn fault_messages() {
    let good = fault(AIS, 0, 1, &interface(1));
    assert_eq!(answer(&good), "0");
    assert_eq!(answer(&good[..8]), "3");
    assert_eq!(answer(&good[..18]), "3");
    assert_eq!(answer(&changed(good.clone(), 4, 0x2f)), "8");
    assert_eq!(answer(&changed(good.clone(), 4, 0x1f)), "0");
    assert_eq!(answer(&changed(good.clone(), 5, 0)), "8");
    assert_eq!(answer(&changed(good.clone(), 5, 3)[..18]), "8");
    assert_eq!(answer(&changed(good.clone(), 6, 0xfc)), "0");
    assert_eq!(answer(&changed(good.clone(), 7, 0)), "8");
    assert_eq!(answer(&changed(good.clone(), 7, 20)), "0");
    assert_eq!(answer(&changed(good.clone(), 7, 21)), "8");
    assert_eq!(answer(&changed(good.clone(), 8, 9)), "8");
    assert_eq!(answer(&changed(good, 10, 7)), "8");
}

#[test]
fn tlvs() {
    let told = |tlvs: &[&[u8]]| answer(&fault(LKR, 0, 1, &tlvs.concat()));
    let id = interface(1);
    let global = [2, 4, 0, 0, 0, 1];
    assert_eq!(told(&[&global, &id]), "0");
    assert_eq!(told(&[&[0, 0], &id, &[9, 1, 1], &global, &[9, 0]]), "0");
    assert_eq!(told(&[&id, &id]), "8");
    assert_eq!(told(&[&global, &id, &global]), "8");
    assert_eq!(told(&[&id, &[3]]), "8");
    assert_eq!(told(&[&[3, 1]]), "8");
    assert_eq!(told(&[&[2, 3, 0, 0, 0]]), "8");
    assert_eq!(told(&[&[1, 0]]), "8");
}

#[test]
fn order_of_refusals_on_open() {
    let bad = open_body(0, 999, 2, OWN, EXPECTED, 0);
    Capture::new()
        .open(5, 0)
        .call(Kind::Open, 4, 0, &bad)
        .call(Kind::Open, 5, LABEL, &bad)
        .open_other(5, 15, 1)
        .open_other(5, 16, 17)
        .open_other(5, LABEL, 18)
        .open_other(5, 1_048_576, 19)
        .open_other(5, 1_048_575, 19)
        .open_other(i64::MAX as u64 + 1, 16, 20)
        .open_other(i64::MAX as u64, 16, 20)
        .prints(&[
            "1 0", "2 1", "3 10", "4 10", "5 11", "6 11", "7 10", "8 0", "9 1", "10 0",
        ]);
}

#[test]
fn a_refused_call_gives_no_timer_and_keeps_the_clock() {
    Capture::new()
        .open(0, 0)
        .receive(0, &cc(INIT, DISCRIMINATOR))
        .receive(9_000_000, &[])
        .report()
        .tick(0)
        .prints(&["1 0", "2 0", "3 3 0", "4 0 3 0 0 0 0 0 0", "5 0"]);
}

#[test]
fn a_crossed_message_takes_up_down_and_restarts_nothing() {
    // No diagnostic 3: the state was not received. A stranger's
    // discriminator harms the session of the label alone.
    Capture::new()
        .open(0, 0)
        .open_other(0, 101, 18)
        .receive(0, &cc(INIT, DISCRIMINATOR))
        .receive(2_000_000, &cc(UP, 18))
        .report()
        .call(Kind::Report, 0, 101, &[])
        .tick(3_000_001)
        .report()
        .tick(5_500_000)
        .receive(5_500_000, &cv(DOWN, 0, EXPECTED))
        .write_cc()
        .prints(&[
            "1 0",
            "2 0",
            "3 0",
            "4 0",
            "5 0 1 1 0 0 0 1 0",
            "6 0 1 0 0 0 0 0 0",
            "7 0",
            "8 0 1 1 1 1 0 1 0",
            "9 0",
            "10 0",
            "11 0 10000022204003180000001100000005000f4240000f424000000000",
        ]);
}

#[test]
fn a_crossed_message_takes_init_down() {
    Capture::new()
        .open(0, 0)
        .receive(0, &cc(DOWN, 0))
        .receive(0, &cv(UP, 0, CROSSED))
        .report()
        .prints(&["1 0", "2 0", "3 0", "4 0 1 1 0 0 0 1 0"]);
}

#[test]
fn a_reply_is_owed_until_a_cc_is_written() {
    let poll = changed(cc(INIT, DISCRIMINATOR), 5, 0xa0);
    Capture::new()
        .open(0, 0)
        .receive(0, &poll)
        .receive(0, &cc(UP, DISCRIMINATOR))
        .write_cv()
        .write_cc()
        .write_cc()
        .prints(&[
            "1 0",
            "2 0",
            "3 0",
            "4 0 1000002320c003180000001100000005000f4240000f4240000000000001000c010101010101010101010101",
            "5 0 1000002220d003180000001100000005000f4240000f424000000000",
            "6 0 1000002220c003180000001100000005000f4240000f424000000000",
        ]);
}

#[test]
fn locking_and_unlocking() {
    let poll = changed(changed(cc(INIT, DISCRIMINATOR), 5, 0xa0), 4, 0x21);
    Capture::new()
        .open(0, 0)
        .receive(0, &poll)
        .report()
        .lock(1)
        .report()
        .write_cc()
        .receive(2, &cc(UP, DISCRIMINATOR))
        .receive(2, &changed(cc(UP, DISCRIMINATOR), 6, 0))
        .lock(9_000_000)
        .report()
        .unlock(9_000_000)
        .report()
        .write_cc()
        .unlock(10_000_000)
        .tick(12_000_001)
        .report()
        .prints(&[
            "1 0",
            "2 0",
            "3 0 3 0 0 0 1 0 0",
            "4 0",
            "5 0 0 0 0 0 0 0 0",
            "6 0 10000022270003180000001100000005000f4240000f424000000000",
            "7 14",
            "8 6 6",
            "9 0",
            "10 0 0 0 0 0 0 0 0",
            "11 0",
            "12 0 1 0 0 0 0 0 0",
            "13 0 10000022204003180000001100000005000f4240000f424000000000",
            "14 0",
            "15 0",
            "16 0 1 0 1 1 0 0 0",
        ]);
}

#[test]
fn at_most_four_conditions() {
    let ais = |number| fault(AIS, 0, 1, &interface(number));
    Capture::new()
        .open(0, 0)
        .receive(0, &ais(0))
        .receive(1, &fault(AIS, 0, 1, &[]))
        .receive(1, &fault(LKR, 0, 1, &[]))
        .receive(1, &ais(1))
        .receive(2, &ais(2))
        .receive(3_499_999, &ais(2))
        .receive(3_499_999, &ais(1))
        .receive(3_499_999, &fault(AIS, 1, 1, &interface(9)))
        .report()
        .receive(3_500_000, &ais(2))
        .report()
        .receive(3_500_000, &fault(LKR, 1, 20, &[]))
        .report()
        .prints(&[
            "1 0",
            "2 0",
            "3 0",
            "4 0",
            "5 0",
            "6 9",
            "7 9",
            "8 0",
            "9 0",
            "10 0 1 0 1 0 0 0 4",
            "11 0",
            "12 0 1 0 1 0 0 0 4",
            "13 0",
            "14 0 1 0 1 0 0 0 3",
        ]);
}

#[test]
fn a_condition_is_dated_from_its_last_message() {
    Capture::new()
        .open(0, 0)
        .receive(0, &fault(AIS, 0, 20, &[]))
        .receive(1_000_000, &fault(AIS, 0, 1, &[]))
        .tick(4_499_999)
        .report()
        .tick(4_500_000)
        .report()
        .prints(&[
            "1 0",
            "2 0",
            "3 0",
            "4 0",
            "5 0 1 0 1 0 0 0 1",
            "6 0",
            "7 0 1 0 1 1 0 0 0",
        ]);
}

#[test]
fn link_down_and_lock_report_are_followed() {
    // The diagnostic is 5 while the condition stands with L, 0 without; and
    // so long the session is held down.
    Capture::new()
        .open(0, 1)
        .receive(0, &cc(INIT, DISCRIMINATOR))
        .receive(0, &fault(LKR, 2, 1, &[]))
        .receive(0, &fault(AIS, 0, 1, &[]))
        .report()
        .receive(0, &fault(AIS, 2, 1, &[]))
        .report()
        .write_cc()
        .receive(0, &cc(INIT, DISCRIMINATOR))
        .report()
        .receive(0, &fault(AIS, 0, 1, &[]))
        .receive(0, &cc(INIT, DISCRIMINATOR))
        .write_cc()
        .prints(&[
            "1 0",
            "2 0",
            "3 0",
            "4 0",
            "5 0 3 0 0 0 0 0 2",
            "6 0",
            "7 0 1 0 0 0 0 0 2",
            "8 0 10000022254003180000001100000005000f4240000f424000000000",
            "9 0",
            "10 0 1 0 0 0 0 0 2",
            "11 0",
            "12 0",
            "13 0 1000002220c003180000001100000005000f4240000f424000000000",
        ]);
}

#[test]
fn remote_defect_comes_back_when_a_cv_ends_the_loss() {
    let told = changed(changed(cc(INIT, DISCRIMINATOR), 4, 0x29), 6, 1);
    Capture::new()
        .open(0, 0)
        .receive(0, &told)
        .tick(1_000_000)
        .report()
        .tick(1_000_001)
        .report()
        .receive(1_000_001, &cv(UP, 0, EXPECTED))
        .report()
        .prints(&[
            "1 0",
            "2 0",
            "3 0",
            "4 0 3 0 0 0 1 0 0",
            "5 0",
            "6 0 1 0 1 1 0 0 0",
            "7 0",
            "8 0 1 0 0 0 1 0 0",
        ]);
}
