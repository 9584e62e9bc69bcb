//! The key of a condition: type, Global_ID and IF_ID, each of these absent or
//! present.

mod common;

use common::*;

const LINK_DOWN: u8 = 2;
const CLEAR: u8 = 1;

fn global(number: u32) -> Vec<u8> {
    [&[2, 4][..], &number.to_be_bytes()].concat()
}

/// All origins of a few numbers, as TLVs; absent is one of the numbers.
fn origins() -> Vec<Vec<u8>> {
    let globals = [vec![], global(0), global(7), global(8), global(7 << 24)];
    let interfaces = [vec![], interface(0), interface(1)];
    globals
        .iter()
        .flat_map(|global| interfaces.iter().map(|id| [&id[..], global].concat()))
        .collect()
}

/// The number of conditions after an alarm indication of one origin and
/// another message behind it.
fn count_behind(first: &[u8], second: &[u8]) -> String {
    let text = Capture::new()
        .open(0, 0)
        .receive(0, &fault(AIS, 0, 20, first))
        .receive(0, second)
        .report()
        .text();
    text.trim_end().rsplit(' ').next().unwrap().to_string()
}

#[test]
fn only_the_same_origin_is_the_same_key() {
    for first in origins() {
        for second in origins() {
            let same = first == second;
            let cleared = count_behind(&first, &fault(AIS, CLEAR, 1, &second));
            assert_eq!(cleared, if same { "0" } else { "1" });
            let told = count_behind(&first, &fault(AIS, 0, 1, &second));
            assert_eq!(told, if same { "1" } else { "2" });
            assert_eq!(count_behind(&first, &fault(LKR, CLEAR, 1, &second)), "1");
        }
    }
}

#[test]
fn the_order_of_tlvs_makes_no_difference() {
    let other = vec![9, 1, 1];
    let first = [interface(1), global(7)].concat();
    for second in [
        [global(7), interface(1)].concat(),
        [other.clone(), global(7), other.clone(), interface(1), other].concat(),
    ] {
        assert_eq!(count_behind(&first, &fault(AIS, CLEAR, 1, &second)), "0");
        assert_eq!(count_behind(&first, &fault(AIS, 0, 1, &second)), "1");
    }
}

#[test]
fn four_are_counted_by_the_key() {
    let ais = |number| fault(AIS, 0, 20, &[interface(1), global(number)].concat());
    Capture::new()
        .open(0, 0)
        .receive(0, &ais(1))
        .receive(0, &ais(2))
        .receive(0, &ais(3))
        .receive(0, &ais(4))
        .receive(0, &ais(5))
        .receive(0, &fault(AIS, 0, 20, &interface(1)))
        .receive(0, &ais(4))
        .receive(
            0,
            &fault(AIS, CLEAR, 1, &[interface(1), global(5)].concat()),
        )
        .report()
        .prints(&[
            "1 0",
            "2 0",
            "3 0",
            "4 0",
            "5 0",
            "6 9",
            "7 9",
            "8 0",
            "9 0",
            "10 0 1 0 0 0 0 0 4",
        ]);
}

#[test]
fn another_carrier_ends_neither_diagnostic_5_nor_the_hold() {
    let of = |flags, number| fault(AIS, flags, 1, &[interface(1), global(number)].concat());
    Capture::new()
        .open(0, 1)
        .receive(0, &of(LINK_DOWN, 7))
        .receive(0, &of(0, 8))
        .receive(0, &of(CLEAR, 8))
        .receive(0, &fault(AIS, CLEAR, 1, &interface(1)))
        .receive(0, &cc(INIT, DISCRIMINATOR))
        .write_cc()
        .receive(0, &of(0, 7))
        .receive(0, &cc(INIT, DISCRIMINATOR))
        .write_cc()
        .prints(&[
            "1 0",
            "2 0",
            "3 0",
            "4 0",
            "5 0",
            "6 0",
            "7 0 10000022254003180000001100000005000f4240000f424000000000",
            "8 0",
            "9 0",
            "10 0 1000002220c003180000001100000005000f4240000f424000000000",
        ]);
}
