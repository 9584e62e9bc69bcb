//! The lines of an answer, one for each of the three questions.

use super::cause::{Answer, Cause, Part};
use super::history::{Damage, Front};
use super::question::{Question, Thing};
use crate::mep_id::{MepId, LSP, SECTION};
use crate::message::{Fault, FaultKind, Message};
use crate::octets::{be16, be32};

pub fn text(question: &Question, answer: &Answer, front: &Front) -> String {
    let mut text = match answer {
        Answer::Because(cause) => because(question, cause),
        Answer::NotOpen => format!("refused 2: label {} is not open\n", question.label),
        Answer::DoesNotStand => format!("refused 15: {}\n", does_not_stand(&question.thing)),
    };
    match front.damage {
        None => {}
        Some(Damage::BadHeader) => text += "capture: bad header\n",
        Some(Damage::Cut) => {
            let records = front.events.len();
            text += &format!("capture: cut behind record {records}\n");
        }
    }
    text
}

fn because(question: &Question, cause: &Cause) -> String {
    let event = cause.act.event;
    let (number, time) = (event.number, event.time);
    let (seconds, micros) = (cause.age / 1_000_000, cause.age % 1_000_000);
    let which = call(&cause.act.part);
    let ends = end(&question.thing, cause.end);
    format!(
        "which: record {number} at {time}, {which}\n\
         how old: {seconds}.{micros:06} s\n\
         ends: {ends}\n"
    )
}

fn does_not_stand(thing: &Thing) -> &'static str {
    match thing {
        Thing::Crossing => "no crossing stands",
        Thing::Loss => "no loss stands",
        Thing::HeldBack => "no alarm is held back",
        Thing::Condition(_) => "this condition does not stand",
    }
}

fn end(thing: &Thing, end: u64) -> String {
    match thing {
        Thing::Crossing => format!("at {end}, unless another crossed message comes"),
        Thing::Loss => {
            format!("at the next CC or CV heard, a lock or a close; stood from {end}")
        }
        Thing::HeldBack => format!("at {end}, or when the loss ends"),
        Thing::Condition(_) => format!("at {end}, or at a message of this key with R"),
    }
}

/// What a call was, in words.
fn call(part: &Part) -> String {
    match part {
        Part::Opening => "opening".to_string(),
        Part::Lock => "lock".to_string(),
        Part::Unlock => "unlock".to_string(),
        Part::Heard(message) => kind(message).to_string(),
        Part::Crossed(message) => crossed(message),
        Part::Fault(message) => fault(message),
    }
}

fn kind(message: &Message) -> &'static str {
    match message {
        Message::Cc(_) => "CC",
        Message::Cv(..) => "CV",
        Message::Fault(fault) => match fault.kind {
            FaultKind::AlarmIndication => "AIS",
            FaultKind::LockReport => "LKR",
        },
    }
}

fn crossed(message: &Message) -> String {
    let kind = kind(message);
    match message {
        Message::Cc(bfd) => format!("{kind}, Your {}", bfd.your_discriminator),
        Message::Cv(bfd, source) => {
            let your = bfd.your_discriminator;
            format!("{kind}, Your {your}, from {}", end_point(source))
        }
        Message::Fault(_) => kind.to_string(),
    }
}

/// A maintenance end point by its numbers; the AGI of a pseudowire is left out.
fn end_point(source: &MepId) -> String {
    let value = source.value();
    let (global, node) = (be32(value, 0), be32(value, 4));
    match source.kind() {
        SECTION => format!("Section {global}/{node}/{}", be32(value, 8)),
        LSP => {
            let (tunnel, lsp) = (be16(value, 8), be16(value, 10));
            format!("LSP {global}/{node}/{tunnel}/{lsp}")
        }
        _ => format!("pseudowire {global}/{node}/{}", be32(value, 8)),
    }
}

fn fault(fault: &Fault) -> String {
    let kind = kind(&Message::Fault(*fault));
    let mut text = format!("{kind}, refresh {} s", fault.refresh);
    if fault.link_down {
        text += ", L";
    }
    if let Some(id) = fault.origin.interface {
        text += &format!(", interface {}/{}", id.node, id.interface);
    }
    if let Some(global) = fault.origin.global {
        text += &format!(", Global_ID {global}");
    }
    text
}
