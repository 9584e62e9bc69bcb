//! `desk text` and `desk assemble`: the same octets back, the words, the answers, the mistakes.

mod common;

use common::{desk, file, printed, refused, stored_captures, watch};
use peer::capture::{append_head, Kind, Record, HEADER};
use peer::make;
use peer::random::Random;

/// The text of a capture, after it has become the same capture again. One that goes wrong is
/// written whole, and then named.
fn text(name: &str, capture: &[u8]) -> String {
    let capture_file = file(&format!("{name}.capture"), capture);
    let output = desk(&["text", &capture_file]);
    let said = String::from_utf8_lossy(&output.stderr).into_owned();
    let text_file = file(&format!("{name}.txt"), &output.stdout);
    let back = printed(&["assemble", &text_file]);
    assert!(back == capture, "{name}: other octets");
    let text = String::from_utf8(output.stdout).expect("UTF-8");
    let whole = peer::assemble::assemble(&text).expect("peer reads it");
    assert!(whole == capture, "{name}: other octets by peer");
    let wrong = text.contains("\n# cut: ") || text.contains("\n# bad header: ");
    assert_eq!(output.status.code(), Some(i32::from(wrong)), "{said}");
    assert_eq!(wrong, said.contains(&format!("{name}.capture: ")), "{said}");
    text
}

/// The lines of records: what the assembler reads, and the remark behind it.
fn lines(text: &str) -> Vec<(&str, &str)> {
    let lines = text.lines().filter_map(|line| line.split_once('#'));
    let calls = lines.filter(|(call, _)| !call.trim().is_empty() && !call.starts_with("header"));
    calls.map(|(call, remark)| (call, remark.trim())).collect()
}

fn words(call: &str) -> String {
    call.split_whitespace().collect::<Vec<_>>().join(" ")
}

#[test]
fn made_captures_come_back() {
    for seed in 1..=200 {
        text("made", &make::capture(seed));
    }
}

#[test]
fn tied_captures_come_back() {
    for seed in 1..=200 {
        text("tied", &make::tied(seed));
    }
}

#[test]
fn stored_captures_come_back() {
    for (_, capture) in stored_captures() {
        text("stored", &capture);
    }
}

#[test]
fn every_cut_comes_back() {
    let capture = make::capture(5);
    for length in (0..400).chain(capture.len() - 40..capture.len()) {
        text("cut", &capture[..length]);
    }
}

#[test]
fn octets_that_are_no_records_come_back() {
    let mut random = Random::new(20);
    for length in [0, 1, 7, 8, 9, 31, 32, 33, 5_000, 600_000] {
        text("no_header", &random.octets(length));
        text(
            "no_records",
            &[&HEADER[..], &random.octets(length)].concat(),
        );
    }
}

/// A body with a known channel type, and damage anywhere.
fn random_message(random: &mut Random) -> Vec<u8> {
    let length = random.pick(&[
        0, 3, 5, 6, 8, 9, 12, 27, 28, 29, 34, 44, 46, 48, 60, 90, 300, 2_048,
    ]);
    let more = random.below(3) as usize;
    let mut body = random.octets(length + more);
    body.truncate(2_048);
    let channel = random.pick(&[0x22, 0x23, 0x23, 0x58, 0x58, 0x09, 0x09, 0x21]);
    let total = random.pick(&[0, 6, 10, 16, 20, 24, 30, 40, 44, 255]);
    let likely = [
        0x10,
        0,
        0,
        channel,
        0x30,
        random.below(4) as u8,
        3,
        24,
        total,
    ];
    let first_wild = random.below(12) as usize;
    for (octet, likely) in body.iter_mut().zip(likely).take(first_wild) {
        *octet = likely;
    }
    for (at, octets) in [
        (9, &[1, 8][..]),
        (19, &[2, 4]),
        (28, &[0, 2, 0, 17]),
        (45, &[3]),
        (8, &[0, total]),
        (12, &[0, 1, 0, 20]),
        (28, &[0, 0, 0, 1, 0, 0, 0, 2, 0, 2, 0, 16]),
        (52, &[0, 0, 0, 3]),
    ] {
        if random.chance(40) && body.len() >= at + octets.len() {
            body[at..at + octets.len()].copy_from_slice(octets);
        }
    }
    if random.chance(20) {
        let from = random.below(body.len() as u64 + 1) as usize;
        body[from..].fill(0);
    }
    body
}

#[test]
fn random_bodies_come_back() {
    let mut random = Random::new(7);
    let mut capture = HEADER.to_vec();
    for number in 0..30_000 {
        let kind = Kind::ALL[if number % 3 == 0 {
            random.below(9) as usize
        } else {
            5
        }];
        let time = random.pick(&[0, number, u64::MAX]);
        let label = random.pick(&[0, 16, 100, u32::MAX]);
        let body = match kind {
            Kind::Open => {
                let length = random.between(30, 40) as usize;
                random.octets(length)
            }
            _ => random_message(&mut random),
        };
        Record {
            time,
            label,
            kind,
            body: &body,
        }
        .append_to(&mut capture);
    }
    let text = text("random_bodies", &capture);
    for word in [
        "cut=",
        "agi=",
        "behind=",
        "tlv=",
        "total=",
        "if=",
        "global=",
        "zeros=",
        "pad=",
        "hex ",
        "dhc ",
        "status=",
        "switching=",
    ] {
        assert!(text.contains(word), "none has {word}");
    }
}

#[test]
fn a_wrong_kind_or_length_ends_the_records() {
    for (kind, length) in [(9, 0), (u16::MAX, 0), (5, 2_049), (0, u16::MAX)] {
        let mut capture = HEADER.to_vec();
        append_head(&mut capture, 1, 0, 0, 0);
        append_head(&mut capture, 2, 100, kind, length);
        capture.extend([0xab; 3_000]);
        let text = text("wrong_kind", &capture);
        assert_eq!(lines(&text).len(), 1);
        let told = refused(&["text", &file("wrong_kind.capture", &capture)]);
        let place = "cut, no whole record stands at offset 24, behind record 1";
        assert!(told.contains(place), "{told}");
    }
}

/// Lines in the words that `text` chooses: each has to come back as it is, none as octets.
const CHOSEN: &str = "
0 100 open my=17 period=1,000,000 own=1/10/1/1 expected=1/20/1/1
5 200 open my=4294967295 period=3,333 own=1/10/4294967295 expected=0/0/0 follow-link-down follow-lock
5 200 open my=0 period=0 own=1/10/4 expected=0/0/0 type=3 marks=4 pad=07 zeros=2
5 200 open hex zeros=34
0 100 receive cc init my=5 your=17
1 100 receive cc up my=5 your=17 mult=1 diag=31 poll final control demand transmit=3,333 receive=0 echo=7
1 100 receive cc admin-down my=0 mult=0 auth multipoint nibble=2 gach-version=3 reserved=9 version=7 behind=aabb pad=cc zeros=4
1 100 receive cc down my=5 length=23
1 100 receive cc down my=5 behind=aa length=30
1 100 receive cc up my=5 cut=12
1 100 receive cv up my=5 your=17 mep=1/20/1/2
1 100 receive cv up my=5 your=17 mep=1/20/9
1 100 receive cv up my=5 your=17 mep=1/20/7 agi=000102
1 100 receive cv up my=5 your=17 mep=1/20/7 agi= agi-type=1 agi-length=3 mep-length=13
1 100 receive cv up my=5 your=17 mep=1/20/7 mep-type=3 mep-length=14 pad=01
1 100 receive cv up my=5 your=17 behind=aabb mep=1/20/1/2 zeros=9
1 100 receive cv up my=5 your=17 mep=1/20/1/1 cut=28
1 100 receive ais refresh=20 L R if=1/7 global=9 tlv=0300
1 100 receive lkr refresh=1
1 100 receive ais refresh=0 flags=4 global=7 tlv=0108 type=3 version=2 low-nibble=5 total=200
1 100 receive ais refresh=1 cut=6
1 100 receive dhc group=7 status=1/55/2/PDF switching=1/56/2/SP
1 100 receive dhc group=4294967295 status=1/55/2/D
1 100 receive dhc group=0 switching=0/4294967295/2 pad=01 zeros=3
1 100 receive dhc group=7 status=1/55/2 status=1/55/2/P tlv=0003000101 nibble=2 gach-version=3 reserved=9 tlv-reserved=258 total=60
1 100 receive dhc group=7 tlv=0002001000000001000000380000000200000004
1 100 receive dhc group=7 switching=1/56/2/S tlv=0001001400000001000000370000000200000000
1 100 receive dhc group=7 cut=9
1 100 receive
1 100 receive hex 100000
1 100 receive hex 10000021 0102
2 - tick
2 7 tick hex ff0000
- 100 report
3 100 report
- 100 write-cc
- 0 write-cv
2 100 lock
2 100 unlock
2 100 close
";

#[test]
fn chosen_words_come_back_as_they_are() {
    let capture = peer::assemble::assemble(CHOSEN).expect("a capture");
    let text = text("chosen", &capture);
    let calls: Vec<String> = lines(&text).iter().map(|(call, _)| words(call)).collect();
    let chosen: Vec<&str> = CHOSEN.trim().lines().collect();
    assert_eq!(calls, chosen);
}

#[test]
fn accepted_messages_are_never_octets() {
    let mut accepted = 0;
    for seed in 1..=60 {
        for (call, remark) in lines(&text("accepted", &make::capture(seed))) {
            let is_receive = words(call).contains(" receive ");
            if is_receive && remark.ends_with(": accepted") {
                assert!(!call.contains(" hex"), "{call}");
                accepted += 1;
            }
        }
    }
    assert!(accepted > 5_000, "{accepted}");
}

/// The seven numbers of a report from its words.
fn report_of(said: &str) -> String {
    let mut parts = said.split(", ");
    let states = ["ADMIN DOWN", "DOWN", "INIT", "UP"];
    let state = parts
        .next()
        .and_then(|said| states.iter().position(|name| *name == said));
    let mut numbers = [state.expect("a state"), 0, 0, 0, 0, 0, 0];
    let names = ["crossing", "loss", "alarm", "remote defect", "blocked"];
    let mut held_back = false;
    for part in parts {
        match names.iter().position(|name| *name == part) {
            Some(at) => numbers[at + 1] = 1,
            None if part == "alarm held back" => held_back = true,
            None => {
                let (count, unit) = part.split_once(' ').expect("a number of conditions");
                numbers[6] = count.parse().expect("a number");
                assert_eq!(
                    unit,
                    if numbers[6] == 1 {
                        "condition"
                    } else {
                        "conditions"
                    }
                );
            }
        }
    }
    assert_eq!(held_back, numbers[2] == 1 && numbers[3] == 0, "{said}");
    numbers.map(|number| format!(" {number}")).concat()
}

/// What `watch` printed, worked back from a remark.
fn answer_of(call: &str, remark: &str) -> String {
    let (number, said) = remark.split_once(": ").expect("a number before the answer");
    if let Some(refusal) = said.strip_prefix("refused ") {
        let (refusal, reason) = refusal.split_once(": ").expect("a reason");
        assert!(reason.len() > 4, "{remark}");
        return format!("{number} {}", refusal.replace(" at ", " "));
    }
    if let Some(message) = said.strip_prefix("wrote ") {
        let mut written = Vec::new();
        peer::assemble::append_line(&mut written, &format!("0 0 receive {message}"))
            .expect("a message");
        let digits: String = written[16..]
            .iter()
            .map(|octet| format!("{octet:02x}"))
            .collect();
        return format!("{number} 0 {digits}");
    }
    match words(call).ends_with(" report") || call.contains(" report hex") {
        true => format!("{number} 0{}", report_of(said)),
        false if said == "accepted" => format!("{number} 0"),
        false => panic!("{remark}"),
    }
}

#[test]
fn the_answers_are_those_of_watch() {
    let mut refusals = std::collections::BTreeSet::new();
    for seed in 1..=100 {
        let capture = make::capture(seed);
        let printed = watch(&file("watched.capture", &capture));
        let text = text("answers", &capture);
        let said: Vec<String> = lines(&text)
            .iter()
            .map(|(call, remark)| answer_of(call, remark))
            .collect();
        let printed: Vec<&str> = printed
            .lines()
            .filter(|line| line.as_bytes()[0].is_ascii_digit())
            .collect();
        assert_eq!(said, printed, "seed {seed}");
        refusals.extend(lines(&text).into_iter().filter_map(|(_, remark)| {
            let (_, refusal) = remark.split_once("refused ")?;
            refusal.split([' ', ':']).next().map(String::from)
        }));
    }
    let all = [
        "1", "10", "11", "12", "14", "2", "24", "25", "3", "4", "5", "6", "7", "8", "9",
    ];
    assert_eq!(refusals.into_iter().collect::<Vec<_>>(), all);
}

/// Calls in order, each with what is said of its answer.
const SAID: &str = "
0 100 open my=17 follow-lock => accepted
0 100 open my=18 => refused 11: the label is open already, or the discriminator in its party
0 101 open my=0 => refused 10: a setting is out of range
0 102 lock => refused 2: no open session has this label
0 100 receive => refused 3 at 0: the message ends before its layout does
0 100 receive hex 20000022 0000 => refused 4 at 0: not an associated channel header of version 0
0 100 receive hex 10000021 0000 => refused 5 at 2: none of the four channel types
0 100 receive cc up my=5 your=17 version=0 => refused 6 at 4: BFD version not 1
0 100 receive cc up my=5 your=17 auth => refused 6 at 5: A or M set
0 100 receive cc up my=5 your=17 mult=0 => refused 6 at 6: multiplier 0
0 100 receive cc up my=5 your=17 length=23 => refused 6 at 7: Length below 24
0 100 receive cc up my=0 your=17 => refused 6 at 8: My Discriminator 0
0 100 receive cc up my=5 => refused 6 at 12: Your Discriminator 0 in a CC that says INIT or UP
0 100 receive cv up my=5 mep-type=3 => refused 7 at 28: the type of the MEP-ID
0 100 receive cv up my=5 behind=0000 mep-length=11 => refused 7 at 32: the length of the MEP-ID
0 100 receive cv up my=5 mep=1/2/3 agi= agi-length=1 => refused 7 at 45: the AGI length of the MEP-ID
0 100 receive ais version=2 => refused 8 at 4: fault message version not 1
0 100 receive ais type=3 => refused 8 at 5: neither AIS nor LKR
0 100 receive ais refresh=21 => refused 8 at 7: refresh not 1 to 20
0 100 receive ais tlv=01 => refused 8 at 9: a TLV
0 100 receive cc init my=5 your=17 poll diag=1 => accepted
- 100 write-cc => wrote cc up my=17 your=5 final
- 100 report => UP, remote defect
0 100 receive ais if=1/1 => accepted
0 100 receive ais if=1/2 => accepted
0 100 receive ais if=1/3 => accepted
0 100 receive ais if=1/4 => accepted
0 100 receive ais if=1/5 => refused 9: a new condition, and four stand already
- 100 report => UP, remote defect, 4 conditions
0 100 lock => accepted
0 100 receive cc up my=5 your=17 => refused 14: a BFD message for a locked session
- 100 report => ADMIN DOWN, 4 conditions
3,500,000 100 unlock => accepted
- 100 report => DOWN
3,500,000 100 receive cc down my=5 => accepted
- 100 report => INIT
3,500,000 100 receive ais => accepted
6,500,001 - tick => accepted
- 100 report => DOWN, loss, alarm held back, 1 condition
7,000,000 - tick => accepted
- 100 report => DOWN, loss, alarm
7,000,000 100 receive cc up my=5 your=18 => accepted
- 100 report => DOWN, crossing, loss, alarm, blocked
6,999,999 - tick => refused 1: the time is below the clock or above the greatest reading
";

#[test]
fn what_is_said_of_each_answer() {
    let capture = peer::assemble::assemble(SAID).expect("a capture");
    let text = text("said", &capture);
    let remarks = lines(&text).into_iter().map(|(_, remark)| remark);
    let wanted = SAID.trim().lines().enumerate();
    let wanted = wanted.filter_map(|(at, line)| Some((at + 1, line.split_once(" => ")?.1)));
    let wanted: Vec<String> = wanted
        .map(|(number, said)| format!("{number}: {said}"))
        .collect();
    assert_eq!(remarks.collect::<Vec<_>>(), wanted);
}

#[test]
fn names_and_times_of_day() {
    let capture =
        peer::assemble::assemble("0 100 open my=17\n3,000,001 - tick\n- 100 report\n1 101 close");
    let capture = file("named.capture", &capture.expect("a capture"));
    let sessions = file("named.sessions", b"LON#1 label=100 my=17 own=1/1/1 expected=1/1/2\nNIL label=16 my=1 own=1/1/1 expected=1/1/2\n");
    let text = printed(&[
        "text",
        &capture,
        "--sessions",
        &sessions,
        "--epoch",
        "1,700,000,000",
    ]);
    let text = String::from_utf8(text).expect("UTF-8");
    let remarks: Vec<&str> = lines(&text).into_iter().map(|(_, remark)| remark).collect();
    assert_eq!(
        remarks,
        [
            "1 2023-11-14T22:13:20.000000Z LON#1: accepted",
            "2 2023-11-14T22:13:23.000001Z: accepted",
            "3 LON#1: DOWN, loss, alarm",
            "4 2023-11-14T22:13:20.000001Z: refused 1: the time is below the clock or above the greatest reading",
        ]
    );
}

#[test]
fn wrong_words_are_named_with_their_line() {
    for (line, said) in [
        ("0 100 opne my=1", "no kind: opne"),
        ("x 100 close", "not a number: x"),
        ("0", "no label"),
        ("0 100", "no kind"),
        ("0 100 receive cc up my=1 yuor=2", "unknown word: yuor=2"),
        ("0 100 receive cc my=1", "no state"),
        ("0 100 receive dm", "no message: dm"),
        ("0 100 receive hex 1", "not octets"),
        ("0 100 receive zeros=18446744073709551615", "too large"),
        ("0 100 receive zeros=65535 pad=00", "body too long"),
        ("0 4294967296 close", "too large"),
        ("0 100 receive cc up my=1 diag=32", "too large: diag=32"),
        ("0 100 receive cc up my=1 version=8", "too large: version=8"),
        (
            "0 100 receive ais low-nibble=16",
            "too large: low-nibble=16",
        ),
        ("0 100 receive ais nibble=16", "too large: nibble=16"),
        ("0 100 receive cc up my=+1 pad=+1", "not octets"),
        ("octets 0g", "not octets"),
        ("header 00", "a header stands before the first record"),
    ] {
        let path = file(
            "wrong.txt",
            format!("# one\n0 - tick\n{line}\n0 - tick\n").as_bytes(),
        );
        let told = refused(&["assemble", &path]);
        assert!(
            told.contains("wrong.txt, line 3: ") && told.contains(said),
            "{line}: {told}"
        );
    }
    let path = file("wrong.txt", b"0 - tick\n0 - \xff\n");
    assert!(refused(&["assemble", &path]).contains("line 2: no UTF-8"));
    let path = file("wrong.txt", &[b' '; 2_000_000]);
    assert!(refused(&["assemble", &path]).contains("line 1: longer than"));
}

/// A line with one of its words changed, doubled or left out.
fn mutated(random: &mut Random, line: &str) -> String {
    let mut words: Vec<String> = line.split(' ').map(String::from).collect();
    let at = random.below(words.len() as u64) as usize;
    let numbers = [
        "",
        "-",
        "0",
        "15",
        "255",
        "256",
        "65536",
        "0x100000000",
        "18446744073709551615",
    ];
    let value = random.pick(&numbers);
    match random.below(4) {
        0 => drop(words.remove(at)),
        1 => words.insert(at, words[at].clone()),
        2 => words[at] = value.to_string(),
        _ => {
            let name = words[at].split('=').next().unwrap_or_default();
            words[at] = format!("{name}={}", "ff".repeat(random.below(300) as usize) + value);
        }
    }
    words.join(" ")
}

#[test]
fn mutated_lines_are_mistakes_or_come_back() {
    let mut random = Random::new(3);
    let lines: Vec<&str> = CHOSEN.trim().lines().collect();
    let mut capture = HEADER.to_vec();
    let mut mistakes = 0;
    for _ in 0..20_000 {
        let line = random.pick(&lines);
        let line = mutated(&mut random, line);
        let mut record = Vec::new();
        match peer::assemble::append_line(&mut record, &line) {
            Ok(()) if record.len() <= 16 + 2_048 => capture.extend(record),
            Ok(()) => {}
            Err(_) => mistakes += 1,
        }
    }
    assert!(
        mistakes > 1_000 && capture.len() > 100_000,
        "{mistakes} {}",
        capture.len()
    );
    text("mutated", &capture);
}

#[test]
fn odd_texts() {
    let tick = peer::assemble::assemble("1 - tick").expect("a capture");
    let odd = format!("\u{feff}1 - tick => 0 # {}\r\n\r\n", "=> ".repeat(9));
    assert_eq!(
        printed(&["assemble", &file("odd.txt", odd.as_bytes())]),
        tick
    );
    assert_eq!(printed(&["assemble", &file("odd.txt", b"")]), HEADER);
    let long = format!("1 100 receive cc up my=1 behind={} ", "00".repeat(255));
    let told = refused(&["assemble", &file("odd.txt", long.as_bytes())]);
    assert!(told.contains("too large: length=279"), "{told}");
    let said = long + "length=7";
    let capture = printed(&["assemble", &file("odd.txt", said.as_bytes())]);
    assert_eq!(capture.len(), HEADER.len() + 16 + 28 + 255);
}

#[test]
fn wrong_command_lines() {
    let capture = file("lines.capture", &HEADER);
    for (words, said) in [
        (&["text"][..], "wants CAPTURE"),
        (&["text", &capture, &capture], "wants CAPTURE"),
        (&["text", &capture, "--epoch"], "`--epoch` wants a value"),
        (&["text", &capture, "--epoch", "now"], "--epoch: `now`"),
        (&["text", &capture, "--speed", "1"], "no option `--speed`"),
        (&["text", "/nowhere"], "cannot read /nowhere"),
        (&["text", "/"], "/ is no regular file"),
        (
            &["text", &capture, "--sessions", "/nowhere"],
            "cannot read /nowhere",
        ),
        (&["assemble"], "wants TEXT"),
        (&["assemble", "/nowhere"], "cannot read /nowhere"),
    ] {
        let told = refused(words);
        assert!(told.contains(said), "{words:?}: {told}");
    }
    let sessions = file("lines.sessions", b"\nLON label=1\n");
    let told = refused(&["text", &capture, "--sessions", &sessions]);
    assert!(told.contains("lines.sessions, line 2: "), "{told}");
    for command in ["text", "assemble"] {
        let output = desk(&[command, "--help"]);
        let help = String::from_utf8_lossy(&output.stdout).into_owned();
        assert!(output.status.success() && help.starts_with(&format!("usage: desk {command} ")));
    }
}

/// What `desk text` says of two ticks where `watch` is in this folder and does this.
fn told_with(folder: &str, script: &str) -> String {
    let capture = peer::assemble::assemble("0 - tick\n0 - tick").expect("a capture");
    let output = std::process::Command::new(env!("CARGO_BIN_EXE_desk"))
        .args(["text", &file("two_ticks.capture", &capture)])
        .env("KORVEZUL_BIN", common::package().join(folder))
        .env("FALSE_WATCH", script)
        .output()
        .expect("desk runs");
    assert_eq!(output.status.code(), Some(1), "{script}");
    String::from_utf8(output.stderr).expect("UTF-8")
}

#[test]
fn a_watch_that_fails_is_told() {
    let told = told_with("tests", "");
    assert!(told.contains("KORVEZUL_BIN names the folder"), "{told}");
    for (script, said) in [
        (
            "echo 1 0; echo it broke >&2",
            "behind record 1: `` it broke",
        ),
        ("echo 1 0; echo 3 0", "behind record 1: `3 0`"),
        ("echo 1 0; echo 2 0; echo cut", "behind record 2: `cut`"),
        ("echo 1 0; echo 2 0; exit 1", "behind record 2"),
        ("echo", "behind record 0"),
    ] {
        let told = told_with("tests/false-watch", script);
        assert!(told.contains(said), "{script}: {told}");
    }
}
