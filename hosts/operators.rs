//! hosts/operators.c again, in Rust: two operators' firmware on one row, first both orderly, then each beside another
//! that is absent, orderly or unruly. What an operator is told is the same each time. hosts/run compares what is
//! printed with hosts/timeline-operators.
mod korvezul;

use korvezul::*;
use std::fmt::Write;

const STEPS: u64 = 9;
/// Microseconds, and the period of every session.
const STEP: u32 = 1_000_000;

/// The card: the row that both have their sessions in, and the clock, which it moves for both.
struct Card {
    table: Table,
    now: u64,
    /// How often an unruly one was answered what.
    answers: [u32; 27],
}

/// The firmware of an operator: its party, its first label and the other's, and all that it was told.
struct Firmware {
    name: &'static str,
    party: u32,
    first: u32,
    foreign: u32,
    told: String,
}

impl Card {
    fn open(&mut self, party: u32, label: u32, discriminator: u32) -> u32 {
        let end = |node| MepId { kind: 1, node, ..MepId::default() };
        let (own, expected) = (end(label), end(label + 1));
        let settings = Settings { own, expected, label, discriminator, period: STEP, ..Settings::default() };
        self.table.open(Opening { settings, party }, self.now)
    }
    fn receive(&mut self, circuit: Circuit, state: u8, your: u32) -> u32 {
        let p = Packet { my: 9, your, transmit: STEP, receive: STEP, state, multiplier: 3, ..Packet::default() };
        let mut m = [0; 28];
        match write_cc_message(&mut m, p) {
            0 => self.table.receive(circuit, &m, self.now),
            answer => answer,
        }
    }
    fn count(&mut self, answer: u32) {
        self.answers[answer.min(26) as usize] += 1;
    }
    /// Every call but an open on a label.
    fn meddle(&mut self, party: u32, label: u32) {
        let (circuit, now) = (Circuit { label, party }, self.now);
        let mut m = [0; CV_OCTETS];
        let answers = [
            self.receive(circuit, 0, 99),
            self.table.lock(circuit, now),
            self.table.write_cc(circuit, &mut m),
            self.table.write_cv(circuit, &mut m),
            self.table.report(circuit).answer,
            self.table.unlock(circuit, now),
            self.table.close(circuit, now),
        ];
        answers.into_iter().for_each(|answer| self.count(answer));
    }
}

/// A call of a firmware, with a line of what it is told. An operator names itself, whatever the label is.
impl Firmware {
    fn circuit(&self, label: u32) -> Circuit {
        Circuit { label, party: self.party }
    }
    fn tell(&mut self, line: std::fmt::Arguments) {
        writeln!(self.told, "{line}").expect("memory");
    }
    fn said(&mut self, now: u64, call: &str, label: u32, answer: u32) {
        let why = if answer == 0 { String::new() } else { format!(", {}", answer_name(answer)) };
        let name = self.name;
        self.tell(format_args!("{now:9} {name:6} {call} {label}: {answer}{why}"));
    }
    fn open(&mut self, card: &mut Card, label: u32, discriminator: u32) {
        let answer = card.open(self.party, label, discriminator);
        self.said(card.now, "open", label, answer);
    }
    fn hear(&mut self, card: &mut Card, label: u32, state: u8, your: u32) {
        let answer = card.receive(self.circuit(label), state, your);
        self.said(card.now, "receive", label, answer);
    }
    fn close(&mut self, card: &mut Card, label: u32) {
        let answer = card.table.close(self.circuit(label), card.now);
        self.said(card.now, "close", label, answer);
    }
    fn report(&mut self, card: &mut Card, label: u32) {
        let r = card.table.report(self.circuit(label));
        self.said(card.now, "report", label, r.answer);
        if r.answer == 0 {
            let state = ["ADMIN DOWN", "DOWN", "INIT", "UP"][usize::from(r.state)];
            self.tell(format_args!(
                "           {state}, crossing {}, loss {}, alarm {}, RDI {}, blocked {}, conditions {}",
                r.crossing, r.loss, r.alarm, r.rdi, r.blocked, r.conditions
            ));
        }
    }
    fn write_cc(&mut self, card: &mut Card, label: u32) {
        let mut m = [0; 28];
        let answer = card.table.write_cc(self.circuit(label), &mut m);
        self.said(card.now, "write CC", label, answer);
        if answer == 0 {
            let hex: String = m.iter().map(|octet| format!("{octet:02x}")).collect();
            self.tell(format_args!("           {hex}"));
        }
    }
}

/// How an operator goes about its business, step by step.
type Manner = fn(&mut Firmware, &mut Card, u64);

fn absent(_: &mut Firmware, _: &mut Card, _: u64) {}

/// Three sessions that come up, are locked, fall silent, are closed and opened again; and at step 3 the calls of one
/// that has mistaken the other's labels for its own.
fn orderly(f: &mut Firmware, card: &mut Card, step: u64) {
    let (a, b, c, foreign) = (f.first, f.first + 1, f.first + 2, f.foreign);
    match step {
        0 => [(a, 17), (b, 18), (c, 17)].into_iter().for_each(|(label, own)| f.open(card, label, own)),
        1 => {
            f.hear(card, a, 2, 17);
            f.write_cc(card, a);
            [a, b].into_iter().for_each(|label| f.report(card, label));
        }
        2 => {
            f.hear(card, a, 3, 17);
            let answer = card.table.lock(f.circuit(b), card.now);
            f.said(card.now, "lock", b, answer);
            [a, b].into_iter().for_each(|label| f.report(card, label));
        }
        3 => mistake(f, card, foreign),
        4 => {
            let answer = card.table.unlock(f.circuit(b), card.now);
            f.said(card.now, "unlock", b, answer);
            f.open(card, c, 19);
            f.write_cc(card, c);
            f.report(card, c);
        }
        5 => f.report(card, a),
        // 4 s after it was heard
        6 => {
            f.report(card, a);
            f.write_cc(card, a);
        }
        // 18 is of b
        7 => {
            f.hear(card, a, 3, 18);
            f.report(card, a);
        }
        _ => {
            f.close(card, b);
            f.report(card, b);
            f.open(card, b, 18);
            [b, c].into_iter().for_each(|label| f.report(card, label));
        }
    }
}

fn mistake(f: &mut Firmware, card: &mut Card, foreign: u32) {
    f.open(card, foreign, 20);
    f.open(card, foreign + 9, 20);
    f.report(card, foreign);
    f.write_cc(card, foreign);
    f.hear(card, foreign, 3, 17);
    f.close(card, foreign);
}

/// All sessions that there are to be had, with the discriminators 1 to 40, and all of them given up again; at each step
/// calls on the other's labels, in the own name and in that of nobody, and readings that have gone by.
fn unruly(f: &mut Firmware, card: &mut Card, step: u64) {
    for i in 0..40 {
        let answer = card.open(f.party, f.first + i, 1 + i);
        card.count(answer);
    }
    for (label, own) in (f.foreign..f.foreign + 4).zip(17..) {
        for party in [f.party, 2] {
            card.meddle(party, label);
            let answer = card.open(party, label, own);
            card.count(answer);
        }
    }
    card.now -= 1;
    card.meddle(f.party, f.first);
    card.now += 1;
    if step % 3 == 2 {
        (f.first..f.first + 40).for_each(|label| card.meddle(f.party, label));
    }
}

/// The card makes the row empty and moves the clock; at each step the other comes first. What both are told, in the
/// order of the calls.
fn run(card: &mut Card, watched: &mut Firmware, other: &mut Firmware, other_is: Manner) -> String {
    assert_eq!(card.table.empty(), 0);
    let mut all = String::new();
    (watched.told, other.told) = (String::new(), String::new());
    for step in 0..STEPS {
        card.now = (step + 1) * u64::from(STEP);
        assert_eq!(card.table.tick(card.now), 0);
        let before = (watched.told.len(), other.told.len());
        other_is(other, card, step);
        orderly(watched, card, step);
        all += &other.told[before.1..];
        all += &watched.told[before.0..];
    }
    all
}

/// What one is told beside one that is absent is what it is told beside any other.
fn compare(card: &mut Card, watched: &mut Firmware, other: &mut Firmware) {
    run(card, watched, other, absent);
    let alone = watched.told.clone();
    let manners: [(&str, Manner); 2] = [("orderly", orderly), ("unruly", unruly)];
    for (name, manner) in manners {
        run(card, watched, other, manner);
        println!(
            "{} beside {}, {name}: {} lines, {} as beside nobody",
            watched.name,
            other.name,
            alone.lines().count(),
            if watched.told == alone { "the same" } else { "NOT the same" }
        );
    }
}

fn main() {
    let firmware = |name, party, first, foreign| Firmware { name, party, first, foreign, told: String::new() };
    let (first, second) = (100, FIRST_OF_THEIRS + 100);
    let (mut a, mut b) = (firmware("ours", OURS, first, second), firmware("theirs", THEIRS, second, first));
    let mut card = Card { table: Table::new(), now: 0, answers: [0; 27] };
    print!("-- both orderly\n{}", run(&mut card, &mut a, &mut b, orderly));
    println!("-- one beside the other");
    compare(&mut card, &mut a, &mut b);
    compare(&mut card, &mut b, &mut a);
    let told = card.answers.iter().enumerate().filter(|(_, times)| **times > 0);
    println!("the unruly were answered{}", told.map(|(n, times)| format!(" {n} x{times}")).collect::<String>());
}
