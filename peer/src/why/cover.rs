//! Counts of the answers to the questions on made captures.

use super::cause::{answer, Answer, Cause, Life, Part};
use super::history::{Damage, Front, History};
use super::question::{Question, Thing};
use crate::mep_id::{LSP, SECTION};
use crate::message::Message;
use crate::table::LARGEST_READING;
use std::collections::BTreeMap;
use std::io;

/// How often each kind of answer came, by its name.
#[derive(Default)]
pub struct Cover {
    questions: u64,
    counts: BTreeMap<String, u64>,
}

impl Cover {
    pub fn questions(&self) -> u64 {
        self.questions
    }

    pub fn print(&self, output: &mut impl io::Write) -> io::Result<()> {
        for (name, count) in &self.counts {
            writeln!(output, "{name}: {count}")?;
        }
        Ok(())
    }

    fn count(&mut self, name: &str) {
        *self.counts.entry(name.to_string()).or_default() += 1;
    }

    fn count_if(&mut self, name: &str, counts: bool) {
        if counts {
            self.count(name);
        }
    }

    /// Counts one question and its answer.
    pub fn add(&mut self, history: &History, question: &Question) {
        let front = history.front(question.upto);
        self.questions += 1;
        self.count_if("asked with upto", question.upto != u64::MAX);
        self.count_if("asked of a cut capture", front.damage == Some(Damage::Cut));
        let bad = front.damage == Some(Damage::BadHeader);
        self.count_if("asked of a bad header", bad);
        let thing = name(&question.thing);
        match answer(&front, question) {
            Answer::NotOpen => self.count("refused 2"),
            Answer::DoesNotStand => self.count(&format!("{thing}, refused 15")),
            Answer::Because(cause) => {
                self.count(&format!("{thing}, answered"));
                self.add_cause(&front, question, &cause);
            }
        }
    }

    fn add_cause(&mut self, front: &Front, question: &Question, cause: &Cause) {
        let past = cause.end > LARGEST_READING;
        self.count_if("end above the greatest reading", past);
        let Some(life) = Life::of(front, question.label) else {
            return;
        };
        match question.thing {
            Thing::Crossing => self.add_crossing(&life, cause),
            Thing::Loss => self.add_loss(&life, cause),
            Thing::HeldBack => self.add_held_back(&life, cause),
            Thing::Condition(key) => {
                let messages = life.of_key(key);
                let sooner = messages.iter().any(|other| other.end > cause.end);
                self.count_if("condition, renewed to a sooner end", sooner);
            }
        }
        let keys = life.keys().len();
        let of_fault = matches!(cause.act.part, Part::Fault(_));
        self.count_if(
            "condition or held back, five keys or more came",
            of_fault && keys > 4,
        );
    }

    fn add_crossing(&mut self, life: &Life, cause: &Cause) {
        let by = match cause.act.part {
            Part::Crossed(Message::Cv(_, source)) => match source.kind() {
                SECTION => "CV from a Section",
                LSP => "CV from an LSP",
                _ => "CV from a pseudowire",
            },
            _ => "CC",
        };
        self.count(&format!("crossing, by a {by}"));
        let equal = life
            .crossed()
            .filter(|act| act.event.time == cause.act.event.time);
        self.count_if("crossing, two at the last reading", equal.count() > 1);
    }

    fn add_loss(&mut self, life: &Life, cause: &Cause) {
        let from = match cause.act.part {
            Part::Opening => "the opening",
            Part::Heard(Message::Cc(_)) => "a CC",
            Part::Heard(_) => "a CV",
            _ => "an unlock",
        };
        self.count(&format!("loss, timed from {from}"));
        let equal = life
            .restarts()
            .filter(|act| act.event.time == cause.act.event.time);
        self.count_if("loss, two at the reading timed from", equal.count() > 1);
    }

    fn add_held_back(&mut self, life: &Life, cause: &Cause) {
        let standing = life.conditions();
        let event = cause.act.event;
        let tied = |other: &&Cause| other.end == cause.end && other.act != cause.act;
        let ties: Vec<&Cause> = standing.iter().filter(tied).collect();
        self.count_if("held back, equal ends", !ties.is_empty());
        let apart = ties.iter().any(|other| other.act.event.time != event.time);
        self.count_if("held back, equal ends from different readings", apart);
        let later = standing.iter().any(|o| o.act.event.number > event.number);
        self.count_if("held back, not by the latest record", later);
    }
}

fn name(thing: &Thing) -> &'static str {
    match thing {
        Thing::Crossing => "crossing",
        Thing::Loss => "loss",
        Thing::HeldBack => "held back",
        Thing::Condition(_) => "condition",
    }
}
