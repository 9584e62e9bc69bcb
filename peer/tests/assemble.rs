//! Captures from texts: what each word becomes.

mod common;

use common::*;
use peer::assemble::{answers, assemble};
use peer::capture::{open_body, Kind, HEADER};
use peer::dhc;

/// The octets of a text's only record behind its sixteen.
fn body(line: &str) -> Vec<u8> {
    assemble(line).unwrap()[HEADER.len() + 16..].to_vec()
}

#[test]
fn a_line_is_a_record() {
    let text = "# a remark\n\n1,000 0x64 close # another\n- - tick\n";
    let expected = Capture::new()
        .call(Kind::Close, 1_000, 100, &[])
        .call(Kind::Tick, 0, 0, &[]);
    assert_eq!(assemble(text).unwrap(), expected.octets);
}

#[test]
fn settings_in_words() {
    let mut own = [0; 12];
    own[3] = 1;
    own[7] = 10;
    own[11] = 3;
    let mut expected = own;
    expected[11] = 4;
    assert_eq!(
        body("0 100 open my=17 period=5 own=1/10/3 expected=1/10/4 follow-lock"),
        open_body(17, 5, 0, own, expected, 2)
    );
    let lsp = body("0 100 open my=17 own=1/2/3/4 follow-link-down follow-lock");
    assert_eq!(lsp[8..22], [0, 1, 0, 0, 0, 1, 0, 0, 0, 2, 0, 3, 0, 4]);
    assert_eq!(lsp[34], 3);
    assert_eq!(
        body("0 100 open my=1 type=2 marks=4 cut=10"),
        [0, 0, 0, 1, 0, 15, 66, 64, 0, 2]
    );
}

#[test]
fn a_cc_in_words() {
    let usual = body("0 100 receive cc init my=5 your=17 transmit=0 receive=0");
    assert_eq!(usual, cc(INIT, 17));
    let full = body(
        "0 100 receive cc up poll final control auth demand multipoint my=5 diag=31 mult=4 \
         behind=aabb pad=cc",
    );
    assert_eq!(full[4..8], [0x3f, 0xff, 4, 26]);
    assert_eq!(full[28..], [0xaa, 0xbb, 0xcc]);
    let wrong =
        body("0 100 receive cc down nibble=2 gach-version=1 reserved=3 channel=5 version=7");
    assert_eq!(wrong[..6], [0x21, 3, 0, 5, 0xe0, 0x40]);
}

#[test]
fn a_cv_in_words() {
    let line = "0 100 receive cv down my=5 your=17 transmit=0 receive=0 mep=0x02020202/0x02020202/0x0202/0x0202";
    assert_eq!(body(line), cv(DOWN, 17, EXPECTED));
    let wrong = body("0 100 receive cv down my=5 mep-type=2 mep-length=11");
    assert_eq!(wrong[28..32], [0, 2, 0, 11]);
}

#[test]
fn a_dhc_message_in_words() {
    let line = "0 100 receive dhc group=7 status=1/55/2/PD switching=1/56/2/S pad=aa";
    let mut octets = body(line);
    assert_eq!(octets.pop(), Some(0xaa));
    let read = dhc::read(&octets).unwrap();
    assert_eq!(dhc::written(&read), Some(octets));
    let (status, switching) = (read.status.unwrap(), read.switching.unwrap());
    assert_eq!((read.group, status.ends.source), (7, 55));
    assert!(status.protection && status.degrade && !status.fail);
    assert!(switching.switch && !switching.protection && switching.ends.source == 56);
    let all = body("0 100 receive dhc status=1/2/3/PDF switching=4/5/6/SP");
    assert_eq!((all[31], all[35], all[55]), (1, 3, 3));
    let odd = body("0 100 receive dhc reserved=9 total=5 tlv-reserved=0x0102 tlv=0003");
    assert_eq!(odd, [0x10, 9, 0, 9, 0, 0, 0, 0, 0, 5, 1, 2, 0, 3]);
    for wrong in [
        "status=1/2",
        "status=1/2/3/",
        "status=1/2/3/FP",
        "status=1/2/3/S",
        "status=1/2/3/P/D",
        "switching=1/2/3/D",
        "switching=1/2/4294967296",
    ] {
        assert!(assemble(&format!("0 100 receive dhc {wrong}")).is_err());
    }
}

#[test]
fn a_cv_of_a_pseudowire_in_words() {
    let line = "0 100 receive cv down my=5 your=17 transmit=0 receive=0 \
                mep=0x02020202/0x02020202/0x02020202 agi-type=9 agi=aabbcc";
    assert_eq!(
        body(line),
        pseudowire_cv(DOWN, 17, EXPECTED, 9, &[0xaa, 0xbb, 0xcc])
    );
    let none = body("0 100 receive cv down my=5 mep=1/2/3 agi=");
    assert_eq!(none[28..32], [0, 2, 0, 14]);
    assert_eq!(none[40..], [0, 0, 0, 3, 0, 0]);
    let wrong =
        body("0 100 receive cv down my=5 mep=1/2/3 agi=00 agi-length=7 mep-type=3 mep-length=9");
    assert_eq!(wrong[28..32], [0, 3, 0, 9]);
    assert_eq!(wrong[44..], [0, 7, 0]);
}

#[test]
fn fault_messages_in_words() {
    assert_eq!(
        body("0 100 receive ais L refresh=2 if=1/7"),
        fault(AIS, 2, 2, &interface(7))
    );
    assert_eq!(body("0 100 receive lkr R"), fault(LKR, 1, 1, &[]));
    let tlvs = [2, 4, 0, 0, 0, 9, 3, 0];
    assert_eq!(
        body("0 100 receive ais global=9 tlv=0300"),
        fault(AIS, 0, 1, &tlvs)
    );
    let wrong = body("0 100 receive ais version=2 low-nibble=3 type=4 flags=0x80 total=1");
    assert_eq!(wrong[4..], [0x23, 4, 0x80, 1, 1]);
}

#[test]
fn octets_as_they_are() {
    assert_eq!(body("0 100 receive hex 10 0000 22"), [0x10, 0, 0, 0x22]);
    assert_eq!(body("0 100 tick hex ff zeros=2"), [0xff, 0, 0]);
    assert_eq!(assemble("header 5450\noctets 4f").unwrap(), *b"TPO");
}

#[test]
fn answers_are_numbered_and_make_no_octet() {
    let text = "0 - tick => 0\n- 100 report => 2 # none\noctets 00 => cut\n";
    assert_eq!(answers(text), "1 0\n2 2\ncut\n");
    assert_eq!(assemble(text).unwrap().len(), HEADER.len() + 33);
}

#[test]
fn mistakes_are_named_with_their_line() {
    for (line, mistake) in [
        ("0", "no label"),
        ("0 100", "no kind"),
        ("0 100 ring", "no kind: ring"),
        ("x 100 lock", "not a number: x"),
        ("0 4,294,967,296 lock", "too large: 4,294,967,296"),
        ("0 100 lock now", "unknown word: now"),
        ("0 100 open my=17 own=1/2", "not a MEP-ID: 1/2"),
        (
            "0 100 open my=17 own=1/2/3",
            "own and expected MEP-ID are of two types",
        ),
        ("0 100 receive cc my=5", "no state"),
        ("0 100 receive bfd", "no message: bfd"),
        (
            "0 100 receive cv down my=5 mep=1/2/3/4 agi=",
            "a pseudowire is Global_ID/Node/AC_ID",
        ),
        ("0 100 receive ais if=1", "an IF_ID is node/interface"),
        ("0 100 receive hex 123", "not octets in hexadecimal: 123"),
        ("0 100 receive hex +1", "not octets in hexadecimal: +1"),
        ("0 100 receive zeros=65,536", "too large: 65,536"),
        ("0 100 receive zeros=65,535 pad=00", "body too long"),
        ("0 100 receive ais nibble=16", "too large: nibble=16"),
        ("0 100 receive cc up diag=32", "too large: diag=32"),
    ] {
        let found = assemble(&format!("# first\n{line}")).unwrap_err();
        assert_eq!(found, format!("line 2: {mistake}"));
    }
}

#[test]
fn a_length_that_is_not_named_has_to_fit_into_its_octet() {
    let octets = "00".repeat(256);
    for (line, mistake) in [
        (format!("cc up behind={octets}"), "too large: length=280"),
        (
            format!("cv up mep=1/2/3 agi={octets}"),
            "too large: agi-length=256",
        ),
        (format!("ais tlv={octets}"), "too large: total=256"),
    ] {
        let line = format!("0 100 receive {line}");
        assert_eq!(assemble(&line).unwrap_err(), format!("line 1: {mistake}"));
        for name in ["length", "agi-length", "total"] {
            if mistake.contains(&format!(" {name}=")) {
                assert!(assemble(&format!("{line} {name}=0")).is_ok());
            }
        }
    }
}
