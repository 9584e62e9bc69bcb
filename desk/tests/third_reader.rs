//! `tshark` as a third reader of exported messages: every field of a CC, CV, AIS or LKR that the
//! second program and `tshark` both read has to be the same. Run by `desk/third-reader`, which says
//! what to install; no part of the usual tests.

mod common;

use common::{desk, file, printed, stored_captures};
use desk::tap::frame::{GAL, HIGHEST_LABEL};
use peer::capture::{Kind, Next, Reader, HEADER};
use peer::make;
use peer::mep_id::{MepId, LSP, SECTION};
use peer::message::{self, Bfd, Fault, FaultKind, Message};
use std::process::Command;

/// What is compared, by the names that `tshark` has for it.
const FIELDS: [&str; 24] = [
    "pwach.channel_type",
    "bfd.diag",
    "bfd.sta",
    "bfd.flags.p",
    "bfd.detect_time_multiplier",
    "bfd.my_discriminator",
    "bfd.your_discriminator",
    "bfd.mep.type",
    "bfd.mep.len",
    "bfd.mep.global.id",
    "bfd.mep.node.id",
    "bfd.mep.tunnel.no",
    "bfd.mep.lsp.no",
    "bfd.mep.interface.no",
    "bfd.mep.ac.id",
    "bfd.mep.agi.type",
    "bfd.mep.agi.len",
    "mplstp_oam.message.type",
    "mplstp_oam.flag_l",
    "mplstp_oam.flag_r",
    "mplstp_oam.refresh.timer",
    "mplstp_oam.node_id",
    "mplstp_oam.if_num",
    "mplstp_oam.global_id",
];
const CHANNEL: usize = 0;
const BFD: usize = 1;
const MEP: usize = 7;
const FAULT: usize = 17;
/// Where the TLVs' fields start.
const TLVS: usize = 21;

type Row = [Option<u64>; FIELDS.len()];

/// A receive as the capture and the second program have it.
struct Expected {
    record: usize,
    time: u64,
    label: u32,
    /// Nothing of a message that is refused.
    row: Option<Row>,
    /// How many fields can be compared: `tshark` takes the first TLV of a fault message for an IF_ID
    /// and the second for a Global_ID, and what stands behind the message for TLVs of it.
    upto: usize,
}

fn put<const N: usize>(row: &mut Row, at: usize, numbers: [u32; N]) {
    for (room, number) in row[at..].iter_mut().zip(numbers) {
        *room = Some(number.into());
    }
}

fn put_bfd(row: &mut Row, channel: u32, bfd: &Bfd) {
    row[CHANNEL] = Some(channel.into());
    let numbers = [
        bfd.diagnostic.into(),
        bfd.state as u32,
        bfd.poll.into(),
        bfd.multiplier.into(),
        bfd.my_discriminator,
        bfd.your_discriminator,
    ];
    put(row, BFD, numbers);
}

fn put_mep_id(row: &mut Row, mep_id: &MepId) {
    let value = mep_id.value();
    let number = |at: usize| u32::from_be_bytes(value[at..at + 4].try_into().expect("four octets"));
    put(
        row,
        MEP,
        [
            mep_id.kind().into(),
            value.len() as u32,
            number(0),
            number(4),
        ],
    );
    match mep_id.kind() {
        SECTION => put(row, MEP + 6, [number(8)]),
        LSP => put(row, MEP + 4, [number(8) >> 16, number(8) & 0xffff]),
        _ => put(
            row,
            MEP + 7,
            [number(8), value[12].into(), value[13].into()],
        ),
    }
}

fn put_fault(row: &mut Row, fault: &Fault) {
    let kind = if fault.kind == FaultKind::AlarmIndication {
        1
    } else {
        2
    };
    row[CHANNEL] = Some(message::CHANNEL_FAULT.into());
    put(
        row,
        FAULT,
        [
            kind,
            fault.link_down.into(),
            fault.clear.into(),
            fault.refresh.into(),
        ],
    );
    if let Some(interface) = fault.origin.interface {
        put(row, TLVS, [interface.node, interface.interface]);
    }
    row[TLVS + 2] = fault.origin.global.map(u64::from);
}

/// The fields of a message by the second program.
fn row_of(body: &[u8]) -> Option<Row> {
    let mut row = [None; FIELDS.len()];
    match message::read(body).ok()?.message {
        Message::Cc(bfd) => put_bfd(&mut row, message::CHANNEL_CC.into(), &bfd),
        Message::Cv(bfd, mep_id) => {
            put_bfd(&mut row, message::CHANNEL_CV.into(), &bfd);
            put_mep_id(&mut row, &mep_id);
        }
        Message::Fault(fault) => put_fault(&mut row, &fault),
    }
    Some(row)
}

/// Whether a fault message has no TLV, or an IF_ID with a Global_ID behind it or not, and ends there.
fn has_usual_tlvs(body: &[u8]) -> bool {
    let kinds = match body.get(8).copied() {
        Some(0) => [None, None],
        Some(10) => [Some(1), None],
        Some(16) => [Some(1), Some(2)],
        _ => return false,
    };
    [body.get(9).copied(), body.get(19).copied()] == kinds
}

fn expected(capture: &[u8]) -> Vec<Expected> {
    let mut found = Vec::new();
    let mut reader = Reader::start(capture).expect("memory").expect("a header");
    let mut record = 0;
    while let Next::Record(next) = reader.next_record().expect("memory") {
        record += 1;
        if next.kind == Kind::Receive && next.label <= HIGHEST_LABEL {
            let (time, label, row) = (next.time, next.label, row_of(next.body));
            let fault = row.is_some_and(|row| row[FAULT].is_some());
            let upto = if fault && !has_usual_tlvs(next.body) {
                TLVS
            } else {
                FIELDS.len()
            };
            found.push(Expected {
                record,
                time,
                label,
                row,
                upto,
            });
        }
    }
    found
}

/// What `tshark` prints of a pcapng, a line a packet.
fn lines(path: &str) -> Vec<String> {
    let mut words = vec!["-r", path, "-T", "fields", "-t", "e"];
    for field in ["frame.time_epoch", "mpls.label", "frame.comment"]
        .iter()
        .chain(&FIELDS)
    {
        words.extend(["-e", field]);
    }
    let output = Command::new("tshark")
        .args(words)
        .output()
        .expect("tshark is installed");
    let said = String::from_utf8_lossy(&output.stderr);
    assert!(output.status.success(), "{said}");
    let text = String::from_utf8(output.stdout).expect("UTF-8");
    text.lines().map(str::to_string).collect()
}

/// A number as `tshark` prints it: decimal, hexadecimal, dotted, or true and false.
fn number(word: &str) -> Option<u64> {
    if let Some(digits) = word.strip_prefix("0x") {
        return u64::from_str_radix(digits, 16).ok();
    }
    if word.contains('.') {
        return word
            .split('.')
            .try_fold(0, |sum, part| Some(sum << 8 | part.parse::<u64>().ok()?));
    }
    match word {
        "True" => Some(1),
        "False" => Some(0),
        _ => word.parse().ok(),
    }
}

#[derive(Default, Debug)]
struct Compared {
    packets: u64,
    cc: u64,
    cv: u64,
    fault: u64,
    other_tlvs: u64,
    refused: u64,
}

fn compare(name: &str, capture: &[u8], compared: &mut Compared) {
    if !capture.starts_with(&HEADER) {
        return;
    }
    let output = desk(&["export", &file("third_reader.capture", capture)]);
    let lines = lines(&file("third_reader.pcapng", &output.stdout));
    let expected = expected(capture);
    assert_eq!(lines.len(), expected.len(), "{name}");
    for (line, expected) in lines.iter().zip(&expected) {
        compare_packet(&format!("{name}: {line}"), line, expected, compared);
    }
}

fn compare_packet(name: &str, line: &str, expected: &Expected, compared: &mut Compared) {
    compared.packets += 1;
    let mut words = line.split('\t');
    let mut word = || words.next().unwrap_or("");
    let seconds = expected.time / 1_000_000;
    // Later ones are more than the clock of `tshark` can show.
    if seconds < 1 << 40 {
        assert_eq!(
            word(),
            format!("{seconds}.{:06}000", expected.time % 1_000_000),
            "{name}"
        );
    } else {
        word();
    }
    assert_eq!(word(), format!("{},{GAL}", expected.label), "{name}");
    assert!(
        word().starts_with(&format!("record {}: ", expected.record)),
        "{name}"
    );
    let Some(row) = expected.row else {
        compared.refused += 1;
        return;
    };
    let mut found: Row = [None; FIELDS.len()];
    found.iter_mut().for_each(|room| *room = number(word()));
    let fault = row[FAULT].is_some();
    compared.cc += u64::from(!fault && row[MEP].is_none());
    compared.cv += u64::from(row[MEP].is_some());
    compared.fault += u64::from(fault);
    compared.other_tlvs += u64::from(expected.upto == TLVS);
    for (at, field) in FIELDS.iter().enumerate().take(expected.upto) {
        assert_eq!(found[at], row[at], "{name}: {field}");
    }
}

#[test]
#[ignore = "needs tshark: run desk/third-reader"]
fn tshark_reads_the_same() {
    let mut compared = Compared::default();
    for (path, capture) in stored_captures() {
        compare(&path.display().to_string(), &capture, &mut compared);
    }
    for seed in 1..=20 {
        compare(&format!("seed {seed}"), &make::capture(seed), &mut compared);
    }
    println!("{compared:?}");
    assert!(compared.cc > 500 && compared.cv > 200 && compared.fault - compared.other_tlvs > 200);
}

/// What `editcap` makes of an export in another form is imported to the same capture.
#[test]
#[ignore = "needs editcap: run desk/third-reader"]
fn editcap_changes_nothing() {
    let sessions = "a label=100 my=17 own=1/10/1/1 expected=1/20/1/1\nb label=200 my=18 own=1/10/1/1 expected=1/20/1/1";
    let sessions = file("third_reader.sessions", sessions.as_bytes());
    let capture = common::package().join("../crates/questions/data/morning.capture");
    let capture = capture.to_str().expect("UTF-8");
    let pcapng = file(
        "third_reader_morning.pcapng",
        &printed(&["export", capture, "--epoch", "1,700,000,000"]),
    );
    let import = |tap: &str| desk(&["import", tap, &sessions, "--start", "1,700,000,000"]).stdout;
    let first = import(&pcapng);
    assert!(first.len() > 485 * 20, "{}", first.len());
    for form in ["pcap", "nsecpcap", "pcapng"] {
        let tap = file(&format!("third_reader.{form}"), &[]);
        let status = Command::new("editcap")
            .args(["-F", form, &pcapng, &tap])
            .status();
        assert!(status.expect("editcap is installed").success());
        assert!(import(&tap) == first, "{form}");
    }
}
