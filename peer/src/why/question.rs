//! What is asked, as the words behind the name of the program.

use crate::message::{FaultKind, InterfaceId, Origin};
use crate::session::Key;

pub const USAGE: &str = "usage: why LABEL crossing|loss|held-back|ais|lkr \
    [if=NODE/INTERFACE] [global=ID] [upto=RECORD] < capture";

/// What may stand at the end of a capture.
#[derive(Clone, Copy, Debug, PartialEq, Eq)]
pub enum Thing {
    Crossing,
    Loss,
    HeldBack,
    Condition(Key),
}

#[derive(Clone, Copy, Debug, PartialEq, Eq)]
pub struct Question {
    pub label: u32,
    pub thing: Thing,
    /// Asked at the end of so many records. No capture has the most that there
    /// can be, so that number stands for all of them.
    pub upto: u64,
}

/// The words behind the thing, each given at most once.
#[derive(Default)]
struct Options {
    interface: Option<InterfaceId>,
    global: Option<u32>,
    upto: Option<u64>,
}

impl Question {
    /// The question of some words, if they are one.
    pub fn of(words: &[&str]) -> Option<Question> {
        let [label, thing, options @ ..] = words else {
            return None;
        };
        let label = number(label)?;
        let options = Options::of(options)?;
        let thing = match *thing {
            "crossing" => options.without_key(Thing::Crossing)?,
            "loss" => options.without_key(Thing::Loss)?,
            "held-back" => options.without_key(Thing::HeldBack)?,
            "ais" => options.with_key(FaultKind::AlarmIndication),
            "lkr" => options.with_key(FaultKind::LockReport),
            _ => return None,
        };
        Some(Question {
            label,
            thing,
            upto: options.upto.unwrap_or(u64::MAX),
        })
    }

    /// The words that ask this question.
    pub fn words(&self) -> Vec<String> {
        let mut words = vec![self.label.to_string(), name(&self.thing).to_string()];
        if let Thing::Condition(key) = self.thing {
            let interface = key.origin.interface;
            words.extend(interface.map(|id| format!("if={}/{}", id.node, id.interface)));
            words.extend(key.origin.global.map(|id| format!("global={id}")));
        }
        if self.upto != u64::MAX {
            words.push(format!("upto={}", self.upto));
        }
        words
    }
}

/// The word for a thing.
fn name(thing: &Thing) -> &'static str {
    match thing {
        Thing::Crossing => "crossing",
        Thing::Loss => "loss",
        Thing::HeldBack => "held-back",
        Thing::Condition(key) => match key.kind {
            FaultKind::AlarmIndication => "ais",
            FaultKind::LockReport => "lkr",
        },
    }
}

impl Options {
    fn of(words: &[&str]) -> Option<Options> {
        let mut options = Options::default();
        for word in words {
            let (name, value) = word.split_once('=')?;
            match name {
                "if" => give(&mut options.interface, interface(value)?)?,
                "global" => give(&mut options.global, number(value)?)?,
                "upto" => give(&mut options.upto, number(value)?)?,
                _ => return None,
            }
        }
        Some(options)
    }

    /// A thing that has no key.
    fn without_key(&self, thing: Thing) -> Option<Thing> {
        let absent = self.interface.is_none() && self.global.is_none();
        absent.then_some(thing)
    }

    fn with_key(&self, kind: FaultKind) -> Thing {
        let origin = Origin {
            global: self.global,
            interface: self.interface,
        };
        Thing::Condition(Key { kind, origin })
    }
}

/// Gives a value to what has none yet.
fn give<T>(option: &mut Option<T>, value: T) -> Option<()> {
    match option.replace(value) {
        Some(_) => None,
        None => Some(()),
    }
}

fn interface(word: &str) -> Option<InterfaceId> {
    let (node, interface) = word.split_once('/')?;
    Some(InterfaceId {
        node: number(node)?,
        interface: number(interface)?,
    })
}

/// A decimal number: digits alone, no sign.
fn number<T: std::str::FromStr>(word: &str) -> Option<T> {
    let digits = word.bytes().all(|octet| octet.is_ascii_digit());
    digits.then(|| word.parse().ok())?
}
