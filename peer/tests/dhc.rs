//! DHC messages: the worked ones of the repository, what is written of random
//! fields and read of random octets, and the command.

use peer::dhc::{self, Dhc, DualNodeSwitching, Ends, PwStatus};
use peer::random::Random;
use peer::refusal::Refusal;
use std::io::Write;
use std::process::{Command, Stdio};

/// The answer to one line.
fn answer(line: &str) -> String {
    let mut output = Vec::new();
    dhc::answer(line.as_bytes(), &mut output).unwrap();
    String::from_utf8(output).unwrap().trim_end().to_string()
}

/// The worked messages: what is done, the words behind it, and the answer.
fn worked(text: &str) -> Vec<(&str, Vec<&str>, &str)> {
    let mut worked: Vec<(&str, Vec<&str>, &str)> = Vec::new();
    for line in text.lines().filter(|line| !line.starts_with('#')) {
        let (asked, expected) = line.split_once("->").unwrap_or((line, ""));
        let words: Vec<&str> = asked.split_whitespace().collect();
        match (words.split_first(), worked.last_mut()) {
            (Some((number, words)), _) => {
                assert_eq!(*number, (worked.len() + 1).to_string());
                worked.push((words[0], words[1..].to_vec(), expected.trim()));
            }
            (None, Some(last)) if !expected.is_empty() => last.2 = expected.trim(),
            _ => {}
        }
    }
    worked
}

/// What a buffer of `ee` holds behind a write that is answered so.
fn buffer_behind(answer: &str, room: usize) -> String {
    let (number, octets) = answer.split_once(' ').unwrap_or((answer, ""));
    format!("{number}, {octets:e<0$}", 2 * room)
}

#[test]
fn the_worked_messages() {
    let text = include_str!("../../hosts/cases/dhc.txt");
    let (mut reads, mut writes) = (0, 0);
    for (word, words, expected) in worked(text) {
        match word {
            "dhc" => {
                reads += 1;
                let said = answer(&format!("read {}", words.concat()));
                assert_eq!(said, expected.replace(',', ""), "{words:?}");
            }
            "write-dhc" => {
                writes += 1;
                let said = answer(&format!("write {}", words.join(" ")));
                let (number, buffer) = expected.split_once(", ").unwrap();
                let expected = format!("{number}, {}", buffer.replace(' ', ""));
                let room = words[0].parse().unwrap();
                assert_eq!(buffer_behind(&said, room), expected, "{words:?}");
            }
            _ => panic!("no such word: {word}"),
        }
    }
    assert!(reads > 30 && writes > 10);
}

fn some_ends(random: &mut Random) -> Ends {
    Ends {
        destination: random.draw() as u32,
        source: random.draw() as u32,
        pseudowire: random.draw() as u32,
    }
}

fn some_fields(random: &mut Random) -> Dhc {
    let mut bit = [false; 7];
    for bit in &mut bit {
        *bit = random.chance(50);
    }
    let status = PwStatus {
        ends: some_ends(random),
        protection: bit[0],
        degrade: bit[1],
        fail: bit[2],
    };
    let switching = DualNodeSwitching {
        ends: some_ends(random),
        switch: bit[3],
        protection: bit[4],
    };
    Dhc {
        group: random.draw() as u32,
        status: bit[5].then_some(status),
        switching: bit[6].then_some(switching),
    }
}

/// What is written reads back, whatever stands behind it, and no octet less does.
#[test]
fn written_fields_read_back() {
    let mut random = Random::new(164);
    for _ in 0..2000 {
        let fields = some_fields(&mut random);
        let Some(mut octets) = dhc::written(&fields) else {
            assert_eq!((fields.status, fields.switching), (None, None));
            continue;
        };
        assert_eq!(dhc::read(&octets), Ok(fields));
        let last = octets.len() - 1;
        assert_eq!(dhc::read(&octets[..last]), Err(Refusal::Short.at(last)));
        octets.extend([0, 1, 0, 20]);
        assert_eq!(dhc::read(&octets), Ok(fields));
    }
}

/// What is read of any octets can be written, and reads to the same.
#[test]
fn what_is_read_can_be_written() {
    let mut random = Random::new(165);
    let mut read = 0;
    for _ in 0..20_000 {
        let Some(mut octets) = dhc::written(&some_fields(&mut random)) else {
            continue;
        };
        for _ in 0..random.between(1, 3) {
            let at = random.below(octets.len() as u64) as usize;
            octets[at] = random.below(32) as u8;
        }
        if let Ok(fields) = dhc::read(&octets) {
            read += 1;
            let again = dhc::written(&fields).unwrap();
            assert_eq!(dhc::read(&again), Ok(fields));
        }
    }
    assert!(read > 1000);
}

#[test]
fn the_command() {
    let run = |input: &[u8]| {
        let mut peer = Command::new(env!("CARGO_BIN_EXE_peer"))
            .arg("dhc")
            .stdin(Stdio::piped())
            .stdout(Stdio::piped())
            .stderr(Stdio::piped())
            .spawn()
            .unwrap();
        peer.stdin.take().unwrap().write_all(input).unwrap();
        peer.wait_with_output().unwrap()
    };
    let output = run(b"# two\nread - => 3\n\nwrite 32 1 - 2/3/4/1/1 # S and P\n");
    let written = "0 1000000900000001001400000002001000000002000000030000000400000003";
    assert!(output.status.success());
    assert_eq!(output.stdout, format!("3\n{written}\n").as_bytes());
    for wrong in ["read", "read 123", "write 1 2 3/4/5/0/0 -", "ask"] {
        let output = run(format!("read -\n{wrong}\n").as_bytes());
        assert_eq!(output.status.code(), Some(2), "{wrong}");
        assert!(String::from_utf8_lossy(&output.stderr).contains("line 2"));
    }
}
