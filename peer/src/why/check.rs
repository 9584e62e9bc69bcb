//! Comparison with another program over the questions of many captures.

use super::cover::Cover;
use super::history::{Event, History};
use super::question::{Question, Thing};
use crate::capture::Kind;
use crate::check::{piece_length, run};
use crate::make;
use crate::message::{self, FaultKind, InterfaceId, Message, Origin};
use crate::random::Random;
use crate::session::{key_of, Key};
use std::io;
use std::path::Path;

/// How often each thing is asked at the end of some first records, beside once
/// at the end.
const EARLIER: usize = 2;
/// A label that no made capture opens.
const NEVER_OPEN: u32 = 999_999;
/// A key that no made capture has.
const NEVER_SENT: Key = Key {
    kind: FaultKind::LockReport,
    origin: Origin {
        global: Some(999_999),
        interface: Some(InterfaceId {
            node: 999_999,
            interface: 0,
        }),
    },
};

/// Asks the program the questions of seeds 1 to `count` and compares. Gives the
/// number of questions, or a description of the first difference.
pub fn check(count: u64, program: &Path) -> io::Result<Result<u64, String>> {
    let mut asked = 0;
    for seed in 1..=count {
        let capture = make::tied(seed);
        let history = History::read(&capture[..], u64::MAX)?;
        // One question of a capture is fed in odd pieces, the others whole.
        let mut piece = piece_length(seed, capture.len());
        for question in questions(seed, &history) {
            let expected = super::text(&history, &question);
            let words = question.words();
            let outcome = run(program, &words, &capture, piece)?;
            if !outcome.is(&expected) {
                let theirs = outcome.told();
                let words = words.join(" ");
                return Ok(Err(format!(
                    "seed {seed}, fed {piece} at a time: why {words}\n\
                     expected:\n{expected}program:\n{theirs}"
                )));
            }
            asked += 1;
            piece = capture.len().max(1);
        }
    }
    Ok(Ok(asked))
}

/// Counts the questions of seeds 1 to `count` and their answers.
pub fn cover(count: u64, output: &mut impl io::Write) -> io::Result<()> {
    let mut cover = Cover::default();
    for seed in 1..=count {
        let capture = make::tied(seed);
        let history = History::read(&capture[..], u64::MAX)?;
        for question in questions(seed, &history) {
            cover.add(&history, &question);
        }
    }
    writeln!(output, "{count} captures, {} questions", cover.questions())?;
    cover.print(output)
}

/// Every label that was ever open and one that was not, every thing, every key
/// of a message that came and one that never did: at the end, and at the end of
/// some first records.
pub fn questions(seed: u64, history: &History) -> Vec<Question> {
    let mut random = Random::new(seed);
    let mut questions = Vec::new();
    for label in labels(history) {
        for thing in things(history, label) {
            let ends = (0..EARLIER).map(|_| random.between(0, history.events.len() as u64 + 1));
            let ends: Vec<u64> = ends.chain([u64::MAX]).collect();
            let of_thing = ends.into_iter().map(|upto| Question { label, thing, upto });
            questions.extend(of_thing);
        }
    }
    questions.push(Question {
        label: NEVER_OPEN,
        thing: Thing::HeldBack,
        upto: u64::MAX,
    });
    questions
}

fn labels(history: &History) -> Vec<u32> {
    let opened = |event: &&Event| event.accepted && event.kind == Kind::Open;
    let mut labels: Vec<u32> = history
        .events
        .iter()
        .filter(opened)
        .map(|e| e.label)
        .collect();
    labels.sort();
    labels.dedup();
    labels
}

fn things(history: &History, label: u32) -> Vec<Thing> {
    let mut keys: Vec<Key> = Vec::new();
    let on_it = |event: &&Event| event.label == label && event.kind == Kind::Receive;
    for event in history.events.iter().filter(on_it) {
        if let Ok(Message::Fault(fault)) = message::read(&event.body).map(|read| read.message) {
            if !keys.contains(&key_of(&fault)) {
                keys.push(key_of(&fault));
            }
        }
    }
    keys.push(NEVER_SENT);
    let mut things = vec![Thing::Crossing, Thing::Loss, Thing::HeldBack];
    things.extend(keys.into_iter().map(Thing::Condition));
    things
}
