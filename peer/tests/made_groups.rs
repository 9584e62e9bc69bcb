//! Made lists of calls on groups: what a group tells follows from the accepted
//! calls alone, nothing else depends on a group, neither party sees the other's,
//! and two messages on two labels at one reading may come in either order.

use peer::capture::Kind;
use peer::dhc::{self, Dhc};
use peer::list::{self, done, text, Call, Line, Switching};
use peer::make;
use peer::message;
use peer::party::Party;
use peer::table::{Answer, GroupCall, GroupName, Table};
use std::process::Command;

const LISTS: u64 = 150;
const CALLS: u64 = 250;

fn made(seed: u64) -> Vec<Line> {
    list::read(&make::groups(seed, CALLS).unwrap()).unwrap()
}

fn line(words: &str) -> Line {
    list::line_of(words).unwrap()
}

/// The answer that a list says, if the line is a call.
fn said(line: &Line) -> Option<&str> {
    match line {
        Line::Call(call) => call.answer.as_deref(),
        Line::Group(on) => on.answer.as_deref(),
        _ => None,
    }
}

fn reading(line: &Line) -> Option<u64> {
    match line {
        Line::Call(call) => call.kind.brings_reading().then_some(call.time),
        Line::Group(on) => on.call.reading(),
        _ => None,
    }
}

fn dhc_of(call: &Call) -> Option<Dhc> {
    let received = call.kind == Kind::Receive;
    received.then(|| dhc::read(&call.body).ok())?
}

fn is_dhc(call: &Call) -> bool {
    call.kind == Kind::Receive && message::channel(&call.body) == Ok(message::CHANNEL_DHC)
}

/// What an accepted call is to groups.
#[derive(Clone, Copy)]
enum Act {
    OnGroup(GroupCall),
    /// On this label.
    Message(u32, Dhc),
    Crossed(u32),
    Close(u32),
    Nothing,
}

/// An accepted call with a reading, and the labels on which a loss or a crossing
/// stands at it, before it acts.
struct Event {
    act: Act,
    lost: Vec<u32>,
    crossed: Vec<u32>,
}

/// The accepted calls, and a table that no group was ever set in.
struct Account {
    events: Vec<Event>,
    plain: Table,
}

impl Account {
    fn tick(&mut self, reading: u64) {
        let answer = done(&mut self.plain, &line(&format!("{reading} - tick")));
        assert_eq!(answer, Ok(Some(Answer::Accepted)));
    }

    /// Takes in an accepted call; the table gets a tick in place of what is a
    /// group's.
    fn add(&mut self, line: &Line, reading: u64) {
        self.tick(reading);
        let labels: Vec<u32> = self.plain.sessions().map(|s| s.settings.label).collect();
        let report = |label: &u32| self.plain.session(*label).map(|s| s.report(reading));
        let lost = |label: &u32| report(label).is_some_and(|report| report.loss);
        let crossed = |label: &u32| report(label).is_some_and(|report| report.misconnectivity);
        self.events.push(Event {
            act: self.act(line),
            lost: labels.iter().copied().filter(lost).collect(),
            crossed: labels.iter().copied().filter(crossed).collect(),
        });
    }

    fn act(&self, line: &Line) -> Act {
        let call = match line {
            Line::Call(call) => call,
            Line::Group(on) => return Act::OnGroup(on.call),
            _ => return Act::Nothing,
        };
        let crossed = || {
            let session = self.plain.session(call.label)?;
            let read = message::read(&call.body).ok()?;
            Some(session.settings.is_misconnected(&read.message))
        };
        match (call.kind, dhc_of(call)) {
            (Kind::Close, _) => Act::Close(call.label),
            (Kind::Receive, Some(dhc)) => Act::Message(call.label, dhc),
            (Kind::Receive, None) if crossed() == Some(true) => Act::Crossed(call.label),
            _ => Act::Nothing,
        }
    }

    /// What a group tells, by looking back to its setting; none if it has ended.
    fn told(&self, name: GroupName) -> Option<[u8; 3]> {
        let sets = |event: &Event| match event.act {
            Act::OnGroup(call @ GroupCall::Set { .. }) => call.name() == name,
            _ => false,
        };
        let since = &self.events[self.events.iter().rposition(sets)?..];
        let Act::OnGroup(GroupCall::Set {
            service, dni, role, ..
        }) = since[0].act
        else {
            return None;
        };
        let label = service.label;
        let closes = |event: &Event| matches!(event.act, Act::Close(closed) if closed == label);
        if since.iter().any(closes) {
            return None;
        }
        let mut pw = false;
        for event in since {
            pw = event.pw(pw, name, label, dni, role == 0);
        }
        let ac = since.iter().rev().find_map(|event| match event.act {
            Act::OnGroup(call @ GroupCall::Ac { ac, .. }) if call.name() == name => Some(ac != 0),
            _ => None,
        });
        let (pw, ac) = (u8::from(pw), u8::from(ac.unwrap_or(false)));
        let state = self.plain.session(dni).map(|session| session.state as u8);
        Some([pw, ac, forwarding(pw, ac, state == Some(3))])
    }
}

fn forwarding(pw: u8, ac: u8, up: bool) -> u8 {
    match (pw, ac) {
        (1, 1) => 1,
        (1, 0) if up => 2,
        (0, 1) if up => 3,
        _ => 0,
    }
}

impl Event {
    /// Whether a PW is active behind this call, if it was before.
    fn pw(&self, before: bool, name: GroupName, label: u32, dni: u32, working: bool) -> bool {
        let lost = self.lost.contains(&label);
        let free = !lost && !self.crossed.contains(&label);
        let before = before && !(working && lost);
        match self.act {
            Act::OnGroup(call) if call.name() == name => match call {
                GroupCall::Set { .. } | GroupCall::Return { .. } => working && free,
                _ => before,
            },
            Act::Crossed(on) if on == label => before && !working,
            Act::Message(on, dhc) if on == dni && dhc.group == name.id => {
                match (working, dhc.switches(), dhc.fails()) {
                    (true, true, _) => false,
                    (false, true, _) | (false, _, true) => true,
                    _ => before,
                }
            }
            _ => before,
        }
    }
}

/// Every ask is answered from the calls that the list says were accepted, and every
/// other call by a table without groups.
#[test]
fn what_is_told_follows_from_the_accepted_calls() {
    let (mut asked, mut others) = (0, 0);
    for seed in 1..=LISTS {
        let mut account = Account {
            events: Vec::new(),
            plain: Table::new(),
        };
        for (number, line) in made(seed).iter().enumerate() {
            let answer = match said(line) {
                None | Some("26") => continue,
                Some(answer) => answer,
            };
            if let (Some(reading), true) = (reading(line), answer.starts_with('0')) {
                account.add(line, reading);
            }
            let expected = match line {
                Line::Group(on) if on.call.reading().is_none() => {
                    asked += 1;
                    let told = account.told(on.call.name());
                    told.map_or("24".into(), |[pw, ac, way]| format!("0 {pw} {ac} {way}"))
                }
                Line::Call(call) if !is_dhc(call) => {
                    others += 1;
                    text(&done(&mut account.plain, line).unwrap().unwrap())
                }
                _ => continue,
            };
            assert_eq!(answer, expected, "seed {seed}, line {}", number + 1);
        }
    }
    assert!(asked > 10_000 && others > 10_000, "{asked}, {others}");
}

/// The lines of a list without what a broken host does.
fn sound(seed: u64) -> Vec<Line> {
    let mut lines = made(seed);
    lines.retain(|line| !matches!(line, Line::Spoil(_)));
    lines
}

fn answers(lines: &[Line]) -> Vec<Option<Answer>> {
    let mut table = Table::new();
    let played = lines.iter().map(|line| done(&mut table, line).unwrap());
    played.collect()
}

fn party_of(line: &Line) -> Option<Party> {
    match line {
        Line::Call(call) if call.kind == Kind::Tick => None,
        Line::Call(call) => Some(call.beside.party),
        Line::Group(on) => Some(on.call.name().party),
        _ => None,
    }
}

#[test]
fn one_party_is_answered_the_same_whatever_the_other_does() {
    let mut compared = 0;
    for seed in 1..=LISTS {
        for party in [0, 1, 2].map(Party) {
            let (mut all, mut alone) = (Table::new(), Table::new());
            for call in &sound(seed) {
                let clock = line(&format!("{} - tick", all.clock()));
                let answer = done(&mut all, call).unwrap();
                if party_of(call) == Some(party) {
                    done(&mut alone, &clock).unwrap();
                    assert_eq!(done(&mut alone, call).unwrap(), answer, "seed {seed}");
                    compared += 1;
                }
            }
        }
    }
    assert!(compared > 20_000, "{compared}");
}

/// Whether two lines are messages on two labels at one reading, one of them a DHC
/// message.
fn may_change_places(pair: &[Line]) -> bool {
    match pair {
        [Line::Call(one), Line::Call(other)] => {
            [one, other].iter().all(|call| call.kind == Kind::Receive)
                && one.time == other.time
                && one.label != other.label
                && [one, other].iter().any(|call| is_dhc(call))
        }
        _ => false,
    }
}

#[test]
fn two_messages_on_two_labels_come_in_either_order() {
    let mut exchanged = 0;
    for seed in 1..=2 * LISTS {
        let lines = sound(seed);
        let places = lines.windows(2).enumerate();
        let pairs = places.filter(|(_, pair)| may_change_places(pair));
        for (place, _) in pairs.take(6) {
            let mut other = lines.clone();
            other.swap(place, place + 1);
            let mut expected = answers(&lines);
            expected.swap(place, place + 1);
            assert!(answers(&other) == expected, "seed {seed}, line {place}");
            exchanged += 1;
        }
    }
    assert!(exchanged > 200, "{exchanged}");
}

#[test]
fn every_event_row_edge_and_answer_is_played() {
    let mut switching = Switching::default();
    for seed in 1..=LISTS {
        switching.add(&made(seed)).unwrap();
    }
    let never = |event: usize, group: usize| match event {
        // Set: active at a working PE without a defect, else standby.
        0 => [1, 2].contains(&group),
        1 | 2 => [0, 2].contains(&group),
        // A working PW is never active while a crossing stands.
        5 => group == 0,
        _ => false,
    };
    for (event, groups) in switching.events.iter().enumerate() {
        for (group, times) in groups.iter().enumerate() {
            assert_eq!(*times == 0, never(event, group), "event {event}, {group}");
        }
    }
    assert!(switching.rows.iter().flatten().all(|times| *times > 0));
    assert!(switching.edges.iter().all(|times| *times > 0));
    for (kind, answers) in [
        ("group", &[0, 1, 2, 10, 11, 26][..]),
        ("ac", &[0, 1, 24, 26]),
        ("return", &[0, 1, 24, 26]),
        ("ask", &[0, 24, 26]),
        ("DHC message", &[0, 1, 2, 3, 24, 25, 26]),
    ] {
        let given = switching.answers.keys().filter(|(of, _)| *of == kind);
        let given: Vec<u8> = given.map(|(_, answer)| *answer).collect();
        assert_eq!(given, answers, "{kind}");
    }
}

#[test]
fn a_list_has_the_calls_that_were_asked_for_and_plays() {
    for seed in 1..=LISTS {
        let lines = made(seed);
        let played = list::play(&lines);
        assert_eq!((played.calls, played.wrong), (CALLS, Vec::new()));
        assert_eq!(list::read(&list::spell(&lines)).unwrap(), lines);
        assert!(made(seed) == lines && made(seed + 1) != lines);
    }
    assert_eq!(make::groups(1, 0), Ok(String::new()));
}

#[test]
fn the_commands() {
    let peer = |words: &[&str]| {
        let mut command = Command::new(env!("CARGO_BIN_EXE_peer"));
        command.args(words).output().unwrap()
    };
    let list = peer(&["make-groups", "7", "90"]).stdout;
    assert_eq!(list, make::groups(7, 90).unwrap().as_bytes());
    let path = std::path::Path::new(env!("CARGO_TARGET_TMPDIR")).join("made.calls");
    std::fs::write(&path, list).unwrap();
    let counted = peer(&["switching", path.to_str().unwrap()]);
    assert!(String::from_utf8_lossy(&counted.stdout).contains("ask, answered 0: "));
    for words in [&["make-groups", "7"][..], &["switching"]] {
        assert_eq!(peer(words).status.code(), Some(2), "{words:?}");
    }
}
