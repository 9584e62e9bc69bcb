//! `desk events` against the second program, which looks for changes in another
//! way, against captures worked out by hand, and on input that is no capture.

#[path = "events/oracle.rs"]
mod oracle;

use desk::cli::Failure;
use desk::events::{find, find_all, Damage, Ends, Event, Options, What};
use oracle::Probes;
use peer::assemble::assemble;
use peer::make;
use peer::random::Random;
use std::path::{Path, PathBuf};
use std::sync::Once;

const HERE: &str = env!("CARGO_MANIFEST_DIR");

/// Without KORVEZUL_BIN the programs are those that the repository's own check makes.
fn programs() {
    static ONCE: Once = Once::new();
    ONCE.call_once(|| {
        if std::env::var_os("KORVEZUL_BIN").is_none() {
            std::env::set_var("KORVEZUL_BIN", format!("{HERE}/../target/bin"));
        }
    });
}

fn found(capture: &[u8], options: &Options) -> (Vec<Event>, Ends) {
    programs();
    let mut events = Vec::new();
    let mut each = |event| {
        events.push(event);
        Ok(())
    };
    let ends = find_all(capture, options, &mut each).unwrap();
    (events, ends)
}

fn options(causes: bool) -> Options {
    Options {
        causes,
        ..Options::default()
    }
}

fn at_edges(seed: u64) -> Probes {
    Probes::Edges(Random::new(seed))
}

/// Compares event by event, so that a difference is small to read.
fn same(name: &str, found: &[Event], expected: &[Event]) {
    for (at, (found, expected)) in found.iter().zip(expected).enumerate() {
        assert_eq!(found, expected, "{name}: event {at}");
    }
    assert_eq!(found.len(), expected.len(), "{name}: number of events");
}

fn captures_of(folder: &str) -> Vec<PathBuf> {
    let folder = Path::new(HERE).join("../crates").join(folder);
    let entries = std::fs::read_dir(folder).unwrap();
    let paths = entries.map(|entry| entry.unwrap().path());
    let mut paths: Vec<PathBuf> = paths
        .filter(|p| p.extension().is_some_and(|e| e == "capture"))
        .collect();
    paths.sort();
    paths
}

/// Which things a list of events has, so that a test that meets none of a kind fails.
#[derive(Default)]
struct Met {
    kinds: [usize; 13],
    without_record: usize,
}

impl Met {
    fn note(&mut self, events: &[Event]) {
        for event in events {
            let kind = match event.what {
                What::Opened => 0,
                What::Closed => 1,
                What::State(_) => 2,
                What::Loss(begins) => 3 + usize::from(begins),
                What::Alarm(begins) => 5 + usize::from(begins),
                What::HeldBack(begins) => 7 + usize::from(begins),
                What::Crossing(begins) => 9 + usize::from(begins),
                What::RemoteDefect(begins) => 11 + usize::from(begins),
            };
            self.kinds[kind] += 1;
            self.without_record += usize::from(event.record.is_none());
        }
    }

    fn all_met(&self, least: usize) {
        assert!(
            self.kinds.iter().all(|&times| times >= least),
            "{:?}",
            self.kinds
        );
        assert!(self.without_record >= least, "{}", self.without_record);
    }
}

#[test]
fn made_captures_show_what_the_second_program_shows() {
    let mut met = Met::default();
    for seed in 1..=150 {
        let capture = make::capture(seed);
        let (events, _) = found(&capture, &options(false));
        same(
            &format!("seed {seed}"),
            &events,
            &oracle::events(&capture, at_edges(seed), false),
        );
        met.note(&events);
    }
    met.all_met(20);
}

#[test]
fn causes_are_those_of_the_second_program() {
    let mut met = Met::default();
    for seed in 1..=60 {
        let capture = make::tied(seed);
        let (events, ends) = found(&capture, &options(true));
        same(
            &format!("tied {seed}"),
            &events,
            &oracle::events(&capture, at_edges(seed), true),
        );
        assert_eq!(ends.without_cause, 0);
        met.note(&events);
    }
    assert!(
        met.kinds[4] >= 20 && met.kinds[8] >= 20 && met.kinds[10] >= 20,
        "{:?}",
        met.kinds
    );
}

/// Times are small, so that every reading can be tried: multipliers that come and are not heard,
/// detection times that end beside records, conditions that lapse at a record's own reading.
const CLOSE: &str = "
        0  100  open my=17 period=1,000
        0  200  open my=18 period=1,000 follow-link-down
      500  100  receive cc init my=5 your=17 mult=2
    2,499  100  receive cc up my=5 your=17 mult=2
    4,500  100  receive cc up my=5 your=17 mult=5
    6,000  100  receive cc up my=5 your=99 mult=1
    9,000  100  receive cv up my=5 your=17
   14,001  200  receive cc init my=6 your=18 diag=1
   14,002  100  receive cc down my=5 mult=200
   15,000  200  receive ais refresh=1 L if=1/7
   20,000  100  receive cc init my=5 your=17
   21,000  200  lock
   22,000  200  unlock
   22,000  100  lock
   24,999    -  tick
   25,000  200  receive cc down my=6
   25,001  100  unlock
   28,001  100  receive cv up my=5 your=17
3,506,000  100  receive cv up my=5 your=17
3,515,000  200  receive ais refresh=1 L if=1/7
3,515,000  200  receive cc init my=6 your=18
3,600,000  200  close
3,600,000  200  open my=18 period=1,000
3,700,000    -  tick
";

#[test]
fn at_every_reading() {
    let capture = assemble(CLOSE).unwrap();
    let (events, _) = found(&capture, &options(true));
    same(
        "every reading",
        &events,
        &oracle::events(&capture, Probes::Every, true),
    );
    // By hand: the AIS of 15,000 lapses when the next one comes, and the CC behind that is heard.
    let then = events
        .iter()
        .filter(|e| (e.reading, e.label) == (3_515_000, 200));
    let then: Vec<(Option<u64>, What)> = then.map(|e| (e.record, e.what)).collect();
    let expected = [
        (Some(20), What::HeldBack(false)),
        (Some(20), What::Alarm(true)),
        (Some(20), What::HeldBack(true)),
        (Some(20), What::Alarm(false)),
        (Some(21), What::Loss(false)),
        (Some(21), What::HeldBack(false)),
    ];
    assert_eq!(then, expected);
}

#[test]
fn the_captures_of_the_repository() {
    let paths = [captures_of("captures/data"), captures_of("questions/data")].concat();
    assert_eq!(paths.len(), 65 + 25);
    let mut met = Met::default();
    for (seed, path) in paths.iter().enumerate() {
        let capture = std::fs::read(path).unwrap();
        let (events, _) = found(&capture, &options(true));
        let expected = oracle::events(&capture, at_edges(seed as u64), true);
        same(&path.display().to_string(), &events, &expected);
        met.note(&events);
    }
    met.all_met(1);
}

#[test]
fn one_label_and_some_readings_are_parts_of_the_whole() {
    for seed in 1..=40 {
        let capture = make::capture(seed);
        let (all, _) = found(&capture, &options(false));
        let Some(some) = all.get(all.len() / 2) else {
            continue;
        };
        let label = found(
            &capture,
            &Options {
                label: Some(some.label),
                ..options(false)
            },
        )
        .0;
        let expected: Vec<Event> = all
            .iter()
            .filter(|e| e.label == some.label)
            .cloned()
            .collect();
        same(&format!("seed {seed}, label"), &label, &expected);
        let (from, to) = (some.reading, all[all.len() * 3 / 4].reading);
        let part = found(
            &capture,
            &Options {
                from,
                to,
                ..options(false)
            },
        )
        .0;
        let within = |e: &&Event| (from..=to).contains(&e.reading);
        let expected: Vec<Event> = all.iter().filter(within).cloned().collect();
        same(&format!("seed {seed}, readings"), &part, &expected);
    }
}

#[test]
fn a_label_never_opened_has_no_events() {
    let capture = make::capture(1);
    let (events, _) = found(
        &capture,
        &Options {
            label: Some(999_999),
            ..options(true)
        },
    );
    assert_eq!(events, []);
    let unknown = assemble("0 100 receive cc down my=5\n9,000,000 - tick").unwrap();
    let (events, ends) = found(&unknown, &options(true));
    assert_eq!(events, []);
    assert_eq!(
        (ends.records, ends.first, ends.last),
        (2, Some(9_000_000), Some(9_000_000))
    );
}

#[test]
fn a_refused_record_brings_no_reading() {
    let text = "0 100 open my=17\n90,000,000 101 receive cc down my=5\n2,000,000 100 receive cc down my=5\n";
    let (events, ends) = found(&assemble(text).unwrap(), &options(true));
    let whats: Vec<(u64, What)> = events.iter().map(|e| (e.reading, e.what)).collect();
    assert_eq!(
        whats,
        [
            (0, What::Opened),
            (0, What::State(1)),
            (2_000_000, What::State(2))
        ]
    );
    assert_eq!(ends.last, Some(2_000_000));
}

#[test]
fn a_capture_cut_at_every_octet() {
    let lines: Vec<&str> = CLOSE.trim().lines().collect();
    let whole = assemble(&lines[..7].join("\n")).unwrap();
    let starts: Vec<usize> = (0..=7)
        .map(|n| assemble(&lines[..n].join("\n")).unwrap().len())
        .collect();
    for length in 0..=whole.len() {
        let (events, ends) = found(&whole[..length], &options(false));
        let records = starts
            .iter()
            .filter(|&&start| start <= length)
            .count()
            .saturating_sub(1);
        let offset = starts[records];
        let damage = match length {
            0..8 => Some(Damage::BadHeader),
            _ if length == offset => None,
            _ => Some(Damage::Cut {
                offset: offset as u64,
            }),
        };
        assert_eq!(
            (ends.records, ends.damage),
            (records as u64, damage),
            "length {length}"
        );
        let before = found(&whole[..length.min(offset)], &options(false)).0;
        same(&format!("length {length}"), &events, &before);
    }
}

#[test]
fn a_failure_of_the_receiver_ends_the_search() {
    programs();
    let capture = make::capture(3);
    let mut told = 0;
    let failure = find(&capture, &Options::default(), &mut |_| {
        told += 1;
        Err(Failure::new("the paper is full"))
    });
    assert_eq!(failure.unwrap_err().what, "the paper is full");
    assert_eq!(told, 1);
}

/// The morning of docs/WHY.md: readings and causes as they are worked out there.
#[test]
fn the_morning_by_hand() {
    let morning = Path::new(HERE).join("../crates/questions/data/morning.capture");
    let (events, ends) = found(&std::fs::read(morning).unwrap(), &options(true));
    let whats: Vec<(u64, u32, Option<u64>, What)> = events
        .iter()
        .map(|e| (e.reading, e.label, e.record, e.what))
        .collect();
    let expected = [
        (20_280_000_000, 100, Some(1), What::Opened),
        (20_280_000_000, 100, Some(1), What::State(1)),
        (20_290_000_000, 100, Some(2), What::State(3)),
        (20_400_000_001, 100, None, What::Loss(true)),
        (20_400_000_001, 100, None, What::HeldBack(true)),
        (20_400_000_001, 100, None, What::State(1)),
        (25_170_000_000, 200, Some(102), What::Opened),
        (25_170_000_000, 200, Some(102), What::State(1)),
        (25_180_000_000, 200, Some(103), What::State(3)),
        (25_200_000_000, 200, Some(111), What::Crossing(true)),
        (25_200_000_000, 200, Some(111), What::State(1)),
        (25_803_500_000, 200, Some(386), What::Crossing(false)),
        (25_810_000_000, 200, Some(388), What::State(3)),
        (25_830_000_000, 200, Some(391), What::Closed),
        (33_000_000_000, 100, Some(529), What::HeldBack(false)),
        (33_000_000_000, 100, Some(529), What::Alarm(true)),
    ];
    assert_eq!(whats, expected);
    assert_eq!((ends.records, ends.last), (530, Some(33_000_000_000)));
    let held_back = events[4].cause.as_ref().unwrap();
    assert_eq!((held_back.record, held_back.reading), (11, 20_390_000_000));
    assert_eq!(held_back.words, "AIS, refresh 20 s, interface 1/7");
    assert_eq!(held_back.age, "10.000001 s");
    assert_eq!(held_back.ends, "at 20460000000, or when the loss ends");
}
