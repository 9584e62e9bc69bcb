//! `desk import`: the capture of a tap, and what is said of the rest.

mod common;
mod taps;

use common::{desk, file, refused};
use desk::import::{Import, Plan};
use desk::sessions;
use peer::assemble::assemble;

const SESSIONS: &str = "east label=100 my=17 own=1/10/1/1 expected=1/20/1/1 follow=link-down
west label=101 my=18 own=1/10/1/2 expected=1/20/1/2 open=1,500,000
";

/// Imports a tap with sessions: the capture, and what was said.
fn import(name: &str, tap: &[u8], sessions: &str, words: &[&str]) -> (Vec<u8>, String) {
    let tap = file(&format!("import_{name}.tap"), tap);
    let sessions = file(&format!("import_{name}.sessions"), sessions.as_bytes());
    let output = desk(&[&["import", &tap, &sessions], words].concat());
    let said = String::from_utf8(output.stderr).expect("UTF-8");
    assert!(output.status.success(), "{name}: {said}");
    (output.stdout, said)
}

fn stored(name: &str, sessions: &str, words: &[&str]) -> (Vec<u8>, String) {
    let run = format!("{name}{}", words.concat().replace('-', ""));
    import(&run, &taps::named(name).octets, sessions, words)
}

#[test]
fn a_capture_has_opens_receives_and_the_last_reading() {
    let (capture, said) = stored("pcap_micro_little", SESSIONS, &[]);
    let text = "0 100 open my=17 follow-link-down
        250,000 100 receive cc up my=5 your=17 zeros=10
        1,500,000 101 open my=18 own=1/10/1/2 expected=1/20/1/2
        1,999,999 101 receive ais if=9/7
        2,000,000 - tick";
    assert_eq!(capture, assemble(text).expect("a text"));
    let lines = "start: 1700000000 s since 1970 is reading 0
4 packets, 2 sessions opened, 2 messages received
1 passed over: no MPLS
1 passed over: MPLS with no associated channel
";
    assert_eq!(said, lines);
}

#[test]
fn both_sections_of_a_pcapng() {
    let (capture, said) = stored("pcapng_big", SESSIONS, &["--start", "2023-11-14T22:13:21Z"]);
    let text = "0 100 open my=17 follow-link-down
        500,000 100 receive lkr refresh=20
        1,000,000 100 receive cc up my=5 your=17
        1,500,000 101 open my=18 own=1/10/1/2 expected=1/20/1/2";
    assert_eq!(capture, assemble(text).expect("a text"));
    assert!(said.starts_with("start: 1700000001 s"), "{said}");
}

#[test]
fn what_cannot_be_received_is_counted() {
    let (capture, said) = stored("pcapng_little", SESSIONS, &[]);
    let text = "0 100 open my=17 follow-link-down
        1 100 receive cc up my=5 your=17
        500,000 100 receive cc up my=0 cut=10
        1,500,000 101 open my=18 own=1/10/1/2 expected=1/20/1/2
        3,000,000 - tick";
    assert_eq!(capture, assemble(text).expect("a text"));
    for line in [
        "\n4 packets, 2 sessions opened, 2 messages received\n",
        "\n1 messages that the tap kept in part\n",
        "\n1 left out: in simple packet blocks",
        "\n1 passed over: no Ethernet\n",
    ] {
        assert!(said.contains(line), "{line}: {said}");
    }
}

#[test]
fn messages_before_the_start_are_left_out() {
    let (capture, said) = stored("pcap_micro_little", SESSIONS, &["--start", "1700000000.5"]);
    let text = "0 100 open my=17 follow-link-down
        1,499,999 101 receive ais if=9/7
        1,500,000 101 open my=18 own=1/10/1/2 expected=1/20/1/2";
    assert_eq!(capture, assemble(text).expect("a text"));
    assert!(said.contains("\n1 left out: before the start\n"), "{said}");
}

const SECTION: &str = "link label=16 my=17 own=Section:1/10/1 expected=Section:1/20/1
wire label=2,000 my=18 own=1/10/1/1 expected=1/20/1/1
";

#[test]
fn the_only_section_and_a_pseudowire() {
    let (capture, said) = stored("pcap_nano_little", SECTION, &[]);
    let text = "0 16 open my=17 own=1/10/1 expected=1/20/1
        0 2000 open my=18
        1 16 receive cc up my=5 your=17 pad=deadbeef
        999,999 2000 receive cc up my=5 your=17
        1,000,000 - tick";
    assert_eq!(capture, assemble(text).expect("a text"));
    assert!(
        said.contains("\n1 passed over: the frame ends before"),
        "{said}"
    );
}

#[test]
fn a_section_of_several_has_to_be_said() {
    let two = format!("{SECTION}other label=17 my=19 own=1/10/2 expected=1/20/2\n");
    let (_, said) = stored("pcap_nano_little", &two, &[]);
    assert!(said.contains("\n1 left out: of the Section"), "{said}");
    let (capture, said) = stored("pcap_nano_little", &two, &["--section", "17"]);
    assert!(!said.contains("Section"), "{said}");
    let text = "0 16 open my=17 own=1/10/1 expected=1/20/1
        0 2000 open my=18
        0 17 open my=19 own=1/10/2 expected=1/20/2
        1 17 receive cc up my=5 your=17 pad=deadbeef
        999,999 2000 receive cc up my=5 your=17
        1,000,000 - tick";
    assert_eq!(capture, assemble(text).expect("a text"));
}

#[test]
fn labels_of_no_session_are_named() {
    let (_, said) = stored(
        "pcap_micro_big",
        "a label=16 my=1 own=1/1/1/1 expected=1/2/1/1",
        &[],
    );
    assert!(
        said.contains("\n2 left out: on labels of no session: 100 (2)\n"),
        "{said}"
    );
    assert!(
        said.contains("\n1 passed over: the GAL not at the bottom"),
        "{said}"
    );
}

/// A pcap of empty frames with these labels above the GAL, a second apart, bodies of these lengths.
fn pcap(messages: &[(u32, u32, usize)]) -> Vec<u8> {
    let mut tap = taps::named("pcap_micro_big").octets;
    tap.truncate(24);
    for (second, label, length) in messages {
        let size = 22 + *length as u32;
        for number in [*second, 0, size, size] {
            tap.extend(number.to_be_bytes());
        }
        tap.extend([0; 12]);
        tap.extend([0x88, 0x47]);
        tap.extend((label << 12).to_be_bytes());
        tap.extend([0, 0, 0xd1, 1]);
        tap.resize(tap.len() + length, 0x10);
    }
    tap
}

#[test]
fn many_labels_are_counted_together() {
    let messages: Vec<_> = (0..30)
        .map(|number| (number, 200 + number % 10, 0))
        .collect();
    let (_, said) = import("many", &pcap(&messages), SESSIONS, &[]);
    let line = "30 left out: on labels of no session: 200 (3) 201 (3) 202 (3) 203 (3) 204 (3) 205 (3) 206 (3) 207 (3) and 2 more labels\n";
    assert!(said.ends_with(line), "{said}");
}

#[test]
fn a_reading_that_goes_back_stays_in_its_place() {
    let (capture, said) = import(
        "back",
        &pcap(&[(50, 100, 1), (52, 100, 2), (51, 100, 3), (49, 100, 4)]),
        SESSIONS,
        &[],
    );
    let text = "0 100 open my=17 follow-link-down
        0 100 receive hex 10
        1,500,000 101 open my=18 own=1/10/1/2 expected=1/20/1/2
        2,000,000 100 receive hex 1010
        1,000,000 100 receive hex 101010";
    assert_eq!(capture, assemble(text).expect("a text"));
    assert!(
        said.contains(
            "\n1 of these at a reading below an earlier one: watch refuses such with 1\n"
        ),
        "{said}"
    );
    assert!(said.contains("\n1 left out: before the start\n"), "{said}");
}

#[test]
fn the_longest_message() {
    let (capture, said) = import(
        "long",
        &pcap(&[(50, 100, 2_048), (50, 100, 2_049)]),
        SESSIONS,
        &[],
    );
    let text = format!(
        "0 100 open my=17 follow-link-down\n0 100 receive hex {}\n1,500,000 101 open my=18 own=1/10/1/2 expected=1/20/1/2",
        "10".repeat(2_048)
    );
    assert_eq!(capture, assemble(&text).expect("a text"));
    assert!(
        said.contains("\n1 left out: longer than 2,048 octets\n"),
        "{said}"
    );
}

#[test]
fn what_stands_before_a_damage_is_written() {
    let whole = taps::named("pcap_micro_little").octets;
    let tap = file("import_cut.tap", &whole[..170]);
    let sessions = file("import_cut.sessions", SESSIONS.as_bytes());
    let output = desk(&["import", &tap, &sessions]);
    let said = String::from_utf8(output.stderr).expect("UTF-8");
    assert_eq!(output.status.code(), Some(1), "{said}");
    assert!(said.ends_with("import_cut.tap: offset 158: the head of a packet: the file ends after 12 of 16 octets\n"), "{said}");
    let text = "0 100 open my=17 follow-link-down
        250,000 100 receive cc up my=5 your=17 zeros=10
        1,000,000 - tick
        1,500,000 101 open my=18 own=1/10/1/2 expected=1/20/1/2";
    assert_eq!(output.stdout, assemble(text).expect("a text"));
}

#[test]
fn wrong_words_and_files() {
    let tap = file("import_words.tap", &taps::named("pcap_micro_big").octets);
    let good = file("import_words.sessions", SESSIONS.as_bytes());
    let bad = file("import_words.bad", b"a label=1");
    let folder = common::package().to_str().expect("UTF-8");
    for (words, said) in [
        (vec![], "wants TAP SESSIONS"),
        (vec![&tap[..]], "wants TAP SESSIONS"),
        (
            vec![&tap, &good, "--start", "noon"],
            "--start: `noon` is neither",
        ),
        (vec![&tap, &good, "--start"], "`--start` wants a value"),
        (
            vec![&tap, &good, "--section", "55"],
            "no session has the label `55`",
        ),
        (
            vec![&tap, &good, "--from", "02:00:00:00:00"],
            "--from: `02:00:00:00:00` is no address",
        ),
        (
            vec![&tap, &good, "--from", "02:00:00:00:00:+1"],
            "is no address",
        ),
        (vec![&tap, &good, "--other"], "no option `--other`"),
        (vec![&tap, &bad], "import_words.bad, line 1:"),
        (vec!["/no/such/tap", &good], "cannot read /no/such/tap"),
        (vec![folder, &good], "offset 0: cannot be read"),
        (
            vec![&good, &good],
            "offset 0: 65617374 starts no pcap and no pcapng",
        ),
    ] {
        let found = refused(&[&["import"], &words[..]].concat());
        assert!(found.contains(said), "{words:?}: {found}");
    }
}

#[test]
fn frames_of_one_sender_alone() {
    let mut tap = taps::named("pcap_micro_little").octets;
    // The sender of the AIS, the third packet.
    tap[158 + 16 + 6 + 5] = 2;
    let (capture, said) = import("sender", &tap, SESSIONS, &["--from", "02-00-00-00-00-01"]);
    let text = "0 100 open my=17 follow-link-down
        250,000 100 receive cc up my=5 your=17 zeros=10
        1,500,000 101 open my=18 own=1/10/1/2 expected=1/20/1/2
        2,000,000 - tick";
    assert_eq!(capture, assemble(text).expect("a text"));
    assert!(
        said.contains("\n1 left out: from another Ethernet address"),
        "{said}"
    );
}

/// A tap with any octet in another form gives a capture that is whole.
#[test]
fn a_damaged_tap_gives_a_whole_capture() {
    let sessions = sessions::parse(SESSIONS).expect("sessions");
    for tap in taps::all() {
        for at in 0..tap.octets.len() {
            for change in [0x01, 0x10, 0x80, 0xff] {
                let mut octets = tap.octets.clone();
                octets[at] ^= change;
                let mut capture = Vec::new();
                let mut import = Import::new(Plan::new(sessions.clone(), None, None), &mut capture);
                let done = import.all(tap.name, &octets[..], |_| ());
                let (opens, packets) = (import.counts.opens, import.counts.packets);
                assert_eq!(opens, 2, "{} {at}", tap.name);
                assert!(done.is_err() || packets > 0, "{} {at}", tap.name);
                let text = peer::watch::text(&capture);
                assert!(
                    !text.ends_with(b"cut\n") && text.starts_with(b"1 0\n"),
                    "{} {at}",
                    tap.name
                );
            }
        }
    }
}

#[test]
fn help_is_there() {
    let output = desk(&["import", "--help"]);
    assert!(output.status.success());
    assert!(String::from_utf8_lossy(&output.stdout).starts_with("usage: desk import TAP SESSIONS"));
}
