//! Plays the worked cases of a folder over the exported calls and holds what they show to what stands
//! behind `->` beside each case. A line of a case is a row of words; `#` starts a line of comment, and
//! a line that starts with `->` belongs to the one before it. Every line that is played is printed;
//! one that shows something else is told on standard error, by file and line, and the host fails.
mod korvezul;

use korvezul::*;
use std::process::ExitCode;
use std::slice::Iter;

/// What a line shows, nothing where it only arranges; or what is wrong with the line.
type Shown = Result<Option<String>, String>;

/// A line: where it stands, its words, and what is expected of it.
struct Case<'a> {
    line: usize,
    words: Vec<&'a str>,
    expected: Option<String>,
}

fn cases_of(text: &str) -> Vec<Case<'_>> {
    let mut cases: Vec<Case> = Vec::new();
    for (i, line) in text.lines().enumerate() {
        let (asked, expected) = match line.split_once("->") {
            Some((asked, expected)) => (asked, Some(expected.split_whitespace().collect::<Vec<_>>().join(" "))),
            None => (line, None),
        };
        let words: Vec<&str> = asked.split_whitespace().collect();
        match (words.first(), cases.last_mut()) {
            (Some(word), _) if word.starts_with('#') => (),
            (Some(_), _) => cases.push(Case { line: i + 1, words, expected }),
            (None, Some(last)) if expected.is_some() && last.expected.is_none() => last.expected = expected,
            (None, _) if expected.is_none() => (),
            (None, _) => cases.push(Case { line: i + 1, words: vec!["->"], expected }),
        }
    }
    cases
}

/// The words of a line that are not read yet.
struct Words<'a>(Iter<'a, &'a str>);

impl<'a> Words<'a> {
    fn word(&mut self) -> Result<&'a str, String> {
        self.0.next().copied().ok_or_else(|| "a word is missing".to_string())
    }
    fn number<N: TryFrom<u64>>(&mut self) -> Result<N, String> {
        number_of(self.word()?)
    }
    /// A label in the hands of its own party, or `LABEL/PARTY`.
    fn circuit(&mut self) -> Result<Circuit, String> {
        let word = self.word()?;
        let (label, party) = word.split_once('/').map_or((word, None), |(label, party)| (label, Some(party)));
        let label = number_of(label)?;
        Ok(Circuit { label, party: party.map_or(Ok(party_of(label)), number_of)? })
    }
    /// 0 for a number that is left out at the end.
    fn number_or_0<N: TryFrom<u64>>(&mut self) -> Result<N, String> {
        if self.0.len() == 0 {
            return number_of("0");
        }
        self.number()
    }
    /// `mode=` and a mode, where that stands next; else a session is coordinated.
    fn mode(&mut self) -> Result<u8, String> {
        let Some(mode) = self.0.as_slice().first().and_then(|word| word.strip_prefix("mode=")) else {
            return Ok(COORDINATED);
        };
        self.0.next();
        number_of(mode)
    }
    /// All that is left, as octets in hex; `00*5` is five noughts.
    fn octets(&mut self) -> Result<Vec<u8>, String> {
        let mut octets = Vec::new();
        for word in self.0.by_ref() {
            let (hex, times) = word.split_once('*').unwrap_or((word, "1"));
            for _ in 0..number_of::<usize>(times)? {
                for i in (0..hex.len()).step_by(2) {
                    let pair = hex.get(i..i + 2).ok_or_else(|| format!("half an octet: {word}"))?;
                    octets.push(u8::from_str_radix(pair, 16).map_err(|_| format!("no octets: {word}"))?);
                }
            }
        }
        Ok(octets)
    }
    fn end(&mut self) -> Result<(), String> {
        self.0.next().map_or(Ok(()), |word| Err(format!("a word too many: {word}")))
    }
}

/// A number, 0x for hex, or a name of a state, a type, flags, a mode or a thing that is asked about.
fn number_of<N: TryFrom<u64>>(word: &str) -> Result<N, String> {
    let digits = word.replace('_', "");
    let number = match word {
        "admin" | "coordinated" => Ok(0),
        "down" | "ais" | "f" | "r" | "source" | "crossing" => Ok(1),
        "init" | "lkr" | "p" | "l" | "sink" | "loss" => Ok(2),
        "up" | "pf" | "lr" | "held-back" => Ok(3),
        "condition" => Ok(4),
        _ => digits.strip_prefix("0x").map_or_else(|| digits.parse(), |hex| u64::from_str_radix(hex, 16)),
    };
    let number = number.map_err(|_| format!("no number: {word}"))?;
    N::try_from(number).map_err(|_| format!("too great for its field: {word}"))
}

/// Octets in hex, four to a word.
fn hex(octets: &[u8]) -> String {
    octets.chunks(4).map(|c| c.iter().map(|o| format!("{o:02x}")).collect::<String>()).collect::<Vec<_>>().join(" ")
}

fn numbers(numbers: &[u64]) -> String {
    numbers.iter().map(u64::to_string).collect::<Vec<_>>().join(" ")
}

/// What stands behind an answer, where there is something.
fn answered(answer: u32, more: &str) -> String {
    if more.is_empty() {
        return answer.to_string();
    }
    format!("{answer}, {more}")
}

/// A call on a table. A refused one leaves row and head as they were.
fn called(t: &mut Table, call: impl FnOnce(&mut Table) -> u32) -> Result<u32, String> {
    let before = t.clone();
    let answer = call(t);
    if answer != 0 && *t != before {
        return Err(format!("refused with {answer}, and the table has changed"));
    }
    Ok(answer)
}

fn empty_table() -> Result<Table, String> {
    let mut t = Table::new();
    match t.empty() {
        0 => Ok(t),
        answer => Err(format!("an empty table is answered {answer}")),
    }
}

fn mep(kind: u16, global: u32, node: u32, local: u32) -> MepId {
    MepId { kind, global, node, local, ..MepId::default() }
}

/// The octets of an AGI in words of eight, the first one highest, noughts behind them.
fn agi(octets: &[u8]) -> Result<[u64; 4], String> {
    let mut words = [0; 4];
    for (i, octet) in octets.iter().enumerate() {
        let word = words.get_mut(i / 8).ok_or("an AGI has at most 32 octets")?;
        *word |= u64::from(*octet) << (56 - 8 * (i % 8));
    }
    Ok(words)
}

/// Type, Global_ID, Node and last number; then, where there is more, AGI type, AGI length and AGI.
fn mep_by(w: &mut Words) -> Result<MepId, String> {
    let id = mep(w.number()?, w.number()?, w.number()?, w.number()?);
    let (group, size) = (w.number_or_0()?, w.number_or_0()?);
    Ok(MepId { group, size, agi: agi(&w.octets()?)?, ..id })
}

/// How many octets a CV from this end point has.
fn cv_size(id: MepId) -> usize {
    match id.kind {
        2 => 46 + usize::from(id.size),
        _ => 44,
    }
}

/// Own LSP, Global_ID 65,000, Node 0a000001, Tunnel 7 and LSP 2, expected the same with Node 0a000002,
/// Tunnel 9 and LSP 4. In each stands an AGI too, of type 5 with the octets 40 to 5f, of type 6 with 60 to 7f:
/// it is nobody's field but a pseudowire's, and there only as far as the AGI length.
fn settings(label: u32, discriminator: u32, period: u32) -> Settings {
    let agi_from = |first: u64| [0, 1, 2, 3].map(|i| 0x0001_0203_0405_0607 + 0x0101_0101_0101_0101 * (first + 8 * i));
    let own = MepId { group: 5, agi: agi_from(0x40), ..mep(1, 65_000, 0x0a00_0001, 0x0007_0002) };
    let expected = MepId { group: 6, agi: agi_from(0x60), ..mep(1, 65_000, 0x0a00_0002, 0x0009_0004) };
    Settings { own, expected, label, discriminator, period, ..Settings::default() }
}

/// The words of a line behind which settings stand: the mode, marks, what is added to the MEP-ID types 1 and 1, and
/// the two AGI lengths.
fn settings_by(mut g: Settings, w: &mut Words) -> Result<Settings, String> {
    g.mode = w.mode()?;
    (g.follow_link, g.follow_lock) = (w.number_or_0()?, w.number_or_0()?);
    g.own.kind += w.number_or_0::<u16>()?;
    g.expected.kind += w.number_or_0::<u16>()?;
    (g.own.size, g.expected.size) = (w.number_or_0()?, w.number_or_0()?);
    w.end()?;
    Ok(g)
}

/// A plain packet of the stories; of the flags 2 is P and 1 is F.
fn packet(state: u8, diagnostic: u8, flags: u8, multiplier: u8, my: u32, your: u32) -> Packet {
    let (poll, fin) = (flags / 2, flags % 2);
    let (transmit, receive) = (1_000_000, 1_000_000);
    Packet { my, your, transmit, receive, diagnostic, state, multiplier, poll, fin, ..Packet::default() }
}

fn cc_of(w: &mut Words) -> Result<(u32, Vec<u8>), String> {
    let p = packet(w.number()?, w.number()?, w.number()?, w.number()?, w.number()?, w.number()?);
    let mut m = vec![0; 28];
    Ok((write_cc_message(&mut m, p), m))
}

/// A CV always has diagnostic 1, P, multiplier 200 and My 51, none of which counts.
fn cv_of(w: &mut Words) -> Result<(u32, Vec<u8>), String> {
    let p = packet(w.number()?, 1, 2, 200, 51, w.number()?);
    let id = mep_by(w)?;
    let mut m = vec![0; cv_size(id)];
    Ok((write_cv_message(&mut m, p, id), m))
}

/// Of the flags 2 is L and 1 is R; a Global_ID is there where it is above 1, and then an IF_ID too.
fn fault_of(w: &mut Words) -> Result<(u32, Vec<u8>), String> {
    let (kind, flags, refresh): (u8, u8, u8) = (w.number()?, w.number()?, w.number()?);
    let present: u32 = w.number_or_0()?;
    let (has_if_id, has_global_id) = ((present > 0) as u8, (present > 1) as u8);
    let (node, interface) = (w.number_or_0()?, w.number_or_0()?);
    let global = present * has_global_id as u32;
    let (link_down, removed) = (flags / 2, flags % 2);
    let f = Fault { node, interface, global, kind, link_down, removed, refresh, has_if_id, has_global_id };
    let mut m = vec![0; 25];
    Ok((write_fault_message(&mut m, f), m))
}

/// The message of a line. What the writers do not write stands there as octets.
fn message_of(word: &str, w: &mut Words) -> Result<Vec<u8>, String> {
    let (answer, message) = match word {
        "cc" => cc_of(w)?,
        "cv" => cv_of(w)?,
        "fault" => fault_of(w)?,
        "octets" => (0, w.octets()?),
        _ => return Err(format!("no such word: {word}")),
    };
    w.end()?;
    match answer {
        0 => Ok(message),
        answer => Err(format!("the message is not written: {answer}")),
    }
}

fn seven(r: ReportAnswer) -> String {
    numbers(&[r.state, r.crossing, r.loss, r.alarm, r.rdi, r.blocked, r.conditions].map(u64::from))
}

/// A report; one that is refused has noughts, and changes nothing.
fn reported(t: &mut Table, circuit: Circuit) -> Result<(u32, String), String> {
    let before = t.clone();
    let r = t.report(circuit);
    if *t != before {
        return Err("a report changed the table".to_string());
    }
    match r.answer {
        0 => Ok((0, seven(r))),
        _ if seven(r) == "0 0 0 0 0 0 0" => Ok((r.answer, String::new())),
        _ => Err(format!("refused with {}, and yet {}", r.answer, seven(r))),
    }
}

/// Reading, age and end of what is asked about; noughts where it is refused. It changes nothing.
fn why(t: &mut Table, w: &mut Words) -> Result<(u32, String), String> {
    let (circuit, thing) = (w.circuit()?, w.number()?);
    let (kind, present) = (w.number_or_0()?, w.number_or_0()?);
    let (node, interface) = (w.number_or_0()?, w.number_or_0()?);
    let (carrier, global) = (w.number_or_0()?, w.number_or_0()?);
    let key = Key { node, interface, global, kind, present, carrier };
    let before = t.clone();
    let c = t.why(Question { circuit, key, thing });
    if *t != before || c.head != t.head {
        return Err("a question changed the table".to_string());
    }
    let told = [c.reading, c.age, c.end];
    match c.answer {
        0 => Ok((0, numbers(&told))),
        _ if told == [0; 3] => Ok((c.answer, String::new())),
        _ => Err(format!("refused with {}, and yet {}", c.answer, numbers(&told))),
    }
}

/// The own end point of a label's session.
fn own_of(t: &Table, label: u32) -> MepId {
    let open = (0..RECORDS).filter(|i| t.head.occupied >> i & 1 == 1).map(|i| t.row[i].settings);
    open.filter(|g| g.label == label).map(|g| g.own).next().unwrap_or_default()
}

/// What is written into a buffer of ee: the message, behind which nothing is touched, or nothing.
fn written(t: &mut Table, word: &str, circuit: Circuit, room: usize) -> Result<(u32, String), String> {
    let mut buffer = vec![0xee; room];
    let (size, answer) = match word {
        "write-cc" => (28, called(t, |t| t.write_cc(circuit, &mut buffer))?),
        _ => (cv_size(own_of(t, circuit.label)), called(t, |t| t.write_cv(circuit, &mut buffer))?),
    };
    let size = if answer == 0 { size } else { 0 };
    if buffer[size..].iter().any(|o| *o != 0xee) {
        return Err(format!("{word} is answered {answer} and touches more: {}", hex(&buffer)));
    }
    Ok((answer, hex(&buffer[..size])))
}

// The table: every call on a table, and what a broken host does to row and head past every call.

fn open_line(t: &mut Table, w: &mut Words) -> Shown {
    let (reading, Circuit { label, party }) = (w.number()?, w.circuit()?);
    let g = settings(label, w.number()?, w.number()?);
    let opening = Opening { settings: settings_by(g, w)?, party };
    Ok(Some(called(t, |t| t.open(opening, reading))?.to_string()))
}

/// Labels 100, 101, .. with discriminators 1, 2, .. until ours are 32, then 500,100 and so on with the same
/// discriminators; the last answer stands for all.
fn fill_line(t: &mut Table, w: &mut Words) -> Shown {
    let (reading, count): (u64, u32) = (w.number()?, w.number()?);
    w.end()?;
    let mut answer = 0;
    for i in 0..count {
        let ours = i < PARTY_SESSIONS;
        let (n, first) = if ours { (i, 100) } else { (i - PARTY_SESSIONS, FIRST_OF_THEIRS + 100) };
        let g = settings(first + n, 1 + n, 1_000_000);
        let opening = if ours { opened_by_us(g) } else { opened_by_them(g) };
        answer = called(t, |t| t.open(opening, reading))?;
    }
    Ok(Some(answer.to_string()))
}

fn spoil_condition(c: &mut Condition, field: &str, value: &str) -> Shown {
    match field {
        "type" => c.key.kind = number_of(value)?,
        "present" => c.key.present = number_of(value)?,
        "node" => c.key.node = number_of(value)?,
        "interface" => c.key.interface = number_of(value)?,
        "carrier" => c.key.carrier = number_of(value)?,
        "global" => c.key.global = number_of(value)?,
        "refresh" => c.refresh = number_of(value)?,
        "flag" => c.link_down = number_of(value)?,
        "date" => c.at = number_of(value)?,
        _ => return Err(format!("no such field: {field}")),
    }
    Ok(None)
}

/// A field of a record, or of one of its four conditions; without a number that is the first.
fn spoil_line(t: &mut Table, w: &mut Words) -> Shown {
    let place: usize = w.number()?;
    let (field, value) = (w.word()?, w.word()?);
    let which: usize = w.number_or_0()?;
    w.end()?;
    let record = t.row.get_mut(place).ok_or("no such place")?;
    match field {
        "label" => record.settings.label = number_of(value)?,
        "discriminator" => record.settings.discriminator = number_of(value)?,
        "period" => record.settings.period = number_of(value)?,
        "link" => record.settings.follow_link = number_of(value)?,
        "lock" => record.settings.follow_lock = number_of(value)?,
        "mode" => record.settings.mode = number_of(value)?,
        "own" => record.settings.own.kind = number_of(value)?,
        "expected" => record.settings.expected.kind = number_of(value)?,
        "own-agi" => record.settings.own.size = number_of(value)?,
        "expected-agi" => record.settings.expected.size = number_of(value)?,
        "remote" => record.peer.remote = number_of(value)?,
        "multiplier" => record.peer.multiplier = number_of(value)?,
        "diagnostic" => record.peer.diagnostic = number_of(value)?,
        "owed" => record.peer.owed = number_of(value)?,
        "state" => record.state = number_of(value)?,
        "timed" => record.timed = number_of(value)?,
        "crossing" => record.crossing = number_of(value)?,
        "crossed" => record.crossed = number_of(value)?,
        _ => {
            let condition = record.conditions.get_mut(which.max(1) - 1).ok_or("there are four conditions")?;
            return spoil_condition(condition, field, value);
        }
    }
    Ok(None)
}

fn head_line(t: &mut Table, w: &mut Words) -> Shown {
    t.head = Head { clock: w.number()?, occupied: w.number()? };
    w.end()?;
    Ok(None)
}

fn places_line(t: &Table, w: &mut Words) -> Shown {
    w.end()?;
    Ok(Some(format!("{} {:016x}", t.head.clock, t.head.occupied)))
}

/// A call that has a reading, a label and perhaps a message.
fn call_line(t: &mut Table, word: &str, w: &mut Words) -> Shown {
    let (reading, circuit) = (w.number()?, w.circuit()?);
    if !["close", "lock", "unlock"].contains(&word) {
        let message = message_of(word, w)?;
        return Ok(Some(called(t, |t| t.receive(circuit, &message, reading))?.to_string()));
    }
    w.end()?;
    let answer = called(t, |t| match word {
        "close" => t.close(circuit, reading),
        "lock" => t.lock(circuit, reading),
        _ => t.unlock(circuit, reading),
    })?;
    Ok(Some(answer.to_string()))
}

fn table_line(t: &mut Table, word: &str, w: &mut Words) -> Shown {
    let (answer, more) = match word {
        "open" => return open_line(t, w),
        "fill" => return fill_line(t, w),
        "spoil" => return spoil_line(t, w),
        "head" => return head_line(t, w),
        "places" => return places_line(t, w),
        "tick" => {
            let reading = w.number()?;
            (called(t, |t| t.tick(reading))?, String::new())
        }
        "report" => reported(t, w.circuit()?)?,
        "why" => why(t, w)?,
        "write-cc" | "write-cv" => written(t, word, w.circuit()?, w.number()?)?,
        "close" | "lock" | "unlock" | "cc" | "cv" | "fault" | "octets" => return call_line(t, word, w),
        _ => return Err(format!("no such word: {word}")),
    };
    w.end()?;
    Ok(Some(answered(answer, &more)))
}

// One session, at readings: the clock is set by a tick where the call itself brings none.

const LABEL: u32 = 100;

fn tick_to(t: &mut Table, reading: u64) -> Result<(), String> {
    match called(t, |t| t.tick(reading))? {
        0 => Ok(()),
        answer => Err(format!("the clock is answered {answer}")),
    }
}

/// What is shown behind an answer that must be 0.
fn accepted((answer, more): (u32, String)) -> Result<String, String> {
    if answer != 0 {
        return Err(format!("answered {answer}"));
    }
    Ok(more)
}

fn report_at(t: &mut Table, reading: u64) -> Result<String, String> {
    tick_to(t, reading)?;
    accepted(reported(t, ours(LABEL))?)
}

/// A call that may change the session, and the report at its reading.
fn session_call(t: &mut Table, word: &str, reading: u64, w: &mut Words) -> Shown {
    let answer = match word {
        "tick" => called(t, |t| t.tick(reading))?,
        "lock" => called(t, |t| t.lock(ours(LABEL), reading))?,
        "unlock" => called(t, |t| t.unlock(ours(LABEL), reading))?,
        _ => {
            let message = message_of(word, w)?;
            called(t, |t| t.receive(ours(LABEL), &message, reading))?
        }
    };
    w.end()?;
    Ok(Some(answered(answer, &report_at(t, reading)?)))
}

fn session_open(t: &mut Table, reading: u64, w: &mut Words) -> Shown {
    let g = settings(LABEL, 17, w.number()?);
    let g = settings_by(g, w)?;
    Ok(Some(called(t, |t| t.open(opened_by_us(g), reading))?.to_string()))
}

/// Whether a call finds the record sound, at a clock: 26 says that it does not.
fn sound(mut t: Table, clock: u64, w: &mut Words) -> Shown {
    w.end()?;
    t.head.clock = clock;
    match called(&mut t, |t| t.tick(clock))? {
        0 => Ok(Some("1".to_string())),
        26 => Ok(Some("0".to_string())),
        answer => Err(format!("answered {answer}")),
    }
}

fn with_own(t: &Table, w: &mut Words) -> Result<Table, String> {
    let mut t = t.clone();
    let record = &mut t.row[0];
    record.state = w.number()?;
    record.peer = Peer { remote: w.number()?, multiplier: w.number()?, diagnostic: w.number()?, owed: w.number()? };
    record.timed = w.number()?;
    record.crossing = w.number()?;
    record.crossed = w.number()?;
    Ok(t)
}

fn with_settings(t: &Table, w: &mut Words) -> Result<Table, String> {
    let mut t = t.clone();
    let g = &mut t.row[0].settings;
    (g.label, g.discriminator, g.period) = (w.number()?, w.number()?, w.number()?);
    g.mode = w.mode()?;
    (g.own.kind, g.expected.kind) = (w.number()?, w.number()?);
    (g.follow_link, g.follow_lock) = (w.number()?, w.number()?);
    (g.own.size, g.expected.size) = (w.number_or_0()?, w.number_or_0()?);
    Ok(t)
}

/// A condition is put into a place of the record.
fn put_condition(t: &mut Table, place: usize, at: u64, w: &mut Words) -> Shown {
    let (kind, present, node) = (w.number()?, w.number()?, w.number()?);
    let (refresh, link_down) = (w.number()?, w.number()?);
    let (carrier, global) = (w.number_or_0()?, w.number_or_0()?);
    let key = Key { node, interface: 4, global, kind, present, carrier };
    t.row[0].conditions[place] = Condition { at, key, refresh, link_down };
    w.end()?;
    Ok(None)
}

fn session_line(t: &mut Table, word: &str, w: &mut Words) -> Shown {
    let reading = w.number()?;
    let shown = match word {
        "open" => return session_open(t, reading, w),
        "sound" => return sound(t.clone(), reading, w),
        "own" => return sound(with_own(t, w)?, reading, w),
        "settings" => return sound(with_settings(t, w)?, reading, w),
        "third" => return put_condition(t, 2, reading, w),
        "fourth" => return put_condition(t, 3, reading, w),
        "report" => report_at(t, reading)?,
        "write-cc" | "write-cv" => {
            tick_to(t, reading)?;
            accepted(written(t, word, ours(LABEL), 78)?)?
        }
        _ => return session_call(t, word, reading, w),
    };
    w.end()?;
    Ok(Some(shown))
}

// Messages alone.

/// The fields of a packet in the order of their octets, the flags as P F C D.
fn packet_fields(p: Packet) -> String {
    let octets = [p.diagnostic, p.state, p.poll, p.fin, p.independent, p.demand, p.multiplier].map(u64::from);
    let rest = [p.my, p.your, p.transmit, p.receive, p.echo].map(u64::from);
    numbers(&[&octets[..], &rest[..]].concat())
}

fn packet_by(w: &mut Words) -> Result<Packet, String> {
    let (diagnostic, state) = (w.number()?, w.number()?);
    let (poll, fin, independent, demand) = (w.number()?, w.number()?, w.number()?, w.number()?);
    let (multiplier, my, your) = (w.number()?, w.number()?, w.number()?);
    let (transmit, receive, echo) = (w.number()?, w.number()?, w.number()?);
    Ok(Packet { my, your, transmit, receive, echo, diagnostic, state, multiplier, poll, fin, independent, demand })
}

/// Type, L, R, refresh time, IF_ID as node/interface and Global_ID; - is one that is absent.
fn fault_fields(f: Fault) -> String {
    let head = numbers(&[f.kind, f.link_down, f.removed, f.refresh].map(u64::from));
    let if_id = match (f.has_if_id, f.node, f.interface) {
        (0, 0, 0) => "-".to_string(),
        (1, node, interface) => format!("{node}/{interface}"),
        other => format!("{other:?}"),
    };
    let global = match (f.has_global_id, f.global) {
        (0, 0) => "-".to_string(),
        (1, global) => global.to_string(),
        other => format!("{other:?}"),
    };
    format!("{head} {if_id} {global}")
}

fn fault_by(w: &mut Words) -> Result<Fault, String> {
    let (kind, link_down, removed, refresh) = (w.number()?, w.number()?, w.number()?, w.number()?);
    let mut f = Fault { kind, link_down, removed, refresh, ..Fault::default() };
    if let Some((node, interface)) = w.word()?.split_once('/') {
        (f.has_if_id, f.node, f.interface) = (1, number_of(node)?, number_of(interface)?);
    }
    let global = w.word()?;
    if global != "-" {
        (f.has_global_id, f.global) = (1, number_of(global)?);
    }
    Ok(f)
}

/// Group ID, PW Status as destination/source/DNI-PW ID/P/D/F, and Dual-Node Switching as
/// destination/source/DNI-PW ID/S/P; - is one that is absent.
fn dhc_fields(d: Dhc) -> String {
    let (a, b) = (d.status, d.switching);
    let status = match a.present {
        0 if a == DhcStatus::default() => "-".to_string(),
        1 => format!("{}/{}/{}/{}/{}/{}", a.destination, a.source, a.pw, a.protection, a.degrade, a.fail),
        _ => format!("{a:?}"),
    };
    let switching = match b.present {
        0 if b == DhcSwitching::default() => "-".to_string(),
        1 => format!("{}/{}/{}/{}/{}", b.destination, b.source, b.pw, b.switches, b.protection),
        _ => format!("{b:?}"),
    };
    format!("{} {status} {switching}", d.id)
}

/// The numbers of a TLV and its bits; none where it is absent.
fn tlv_by<const N: usize>(w: &mut Words) -> Result<Option<([u32; 3], [u8; N])>, String> {
    let word = w.word()?;
    if word == "-" {
        return Ok(None);
    }
    let parts: Vec<&str> = word.split('/').collect();
    let (numbers, bits) = parts.split_at(parts.len().min(3));
    let mut tlv = ([0; 3], [0; N]);
    if (numbers.len(), bits.len()) != (3, N) {
        return Err(format!("not {} numbers: {word}", 3 + N));
    }
    for (to, part) in tlv.0.iter_mut().zip(numbers) {
        *to = number_of(part)?;
    }
    for (to, part) in tlv.1.iter_mut().zip(bits) {
        *to = number_of(part)?;
    }
    Ok(Some(tlv))
}

fn dhc_by(w: &mut Words) -> Result<Dhc, String> {
    let mut d = Dhc { id: w.number()?, ..Dhc::default() };
    if let Some(([destination, source, pw], [protection, degrade, fail])) = tlv_by(w)? {
        d.status = DhcStatus { destination, source, pw, present: 1, protection, degrade, fail };
    }
    if let Some(([destination, source, pw], [switches, protection])) = tlv_by(w)? {
        d.switching = DhcSwitching { destination, source, pw, present: 1, switches, protection };
    }
    Ok(d)
}

/// What a reader shows: 0 and the fields, or a refusal and noughts, with a place in either case.
fn read(answer: u32, place: u64, noughts: bool, fields: String) -> Shown {
    match (answer, noughts) {
        (0, _) => Ok(Some(format!("0 {place}, {fields}"))),
        (_, true) => Ok(Some(format!("{answer} {place}"))),
        (_, false) => Err(format!("refused with {answer}, and yet {fields}")),
    }
}

fn read_cc_line(m: &[u8]) -> Shown {
    let r = read_cc(m);
    read(r.answer, r.place, r.packet == Packet::default(), packet_fields(r.packet))
}

/// Type and numbers; of a pseudowire AGI type, AGI length and AGI too. What a type does not use is read as
/// nought, and what is not shows here.
fn mep_fields(id: MepId) -> String {
    let four = numbers(&[u64::from(id.kind), id.global.into(), id.node.into(), id.local.into()]);
    if id == mep(id.kind.min(1), id.global, id.node, id.local) {
        return four;
    }
    let octets: Vec<u8> = id.agi.iter().flat_map(|word| word.to_be_bytes()).collect();
    let (agi, behind) = octets.split_at(usize::from(id.size).min(32));
    let behind = behind.iter().any(|o| *o != 0).then(|| format!("and {}", hex(behind)));
    let words = [four, id.group.to_string(), id.size.to_string(), hex(agi), behind.unwrap_or_default()];
    words.into_iter().filter(|word| !word.is_empty()).collect::<Vec<_>>().join(" ")
}

fn read_cv_line(m: &[u8]) -> Shown {
    let r = read_cv(m);
    let (from, to) = (r.part as usize, (r.part + r.part_octets) as usize);
    let noughts = r.packet == Packet::default() && r.mep == MepId::default() && to == 0;
    let part = m.get(from..to).ok_or("the part is not in the message")?;
    let (packet, id) = (packet_fields(r.packet), mep_fields(r.mep));
    read(r.answer, r.place, noughts, format!("{packet}, {id}, {}", hex(part)))
}

/// A MEP-ID alone, which is answered without a place.
fn read_mep_line(octets: &[u8]) -> Shown {
    let r = read_mep_id(octets);
    match r.answer {
        0 => Ok(Some(answered(0, &mep_fields(r.mep)))),
        n if r.mep == MepId::default() => Ok(Some(n.to_string())),
        n => Err(format!("refused with {n}, and yet {}", mep_fields(r.mep))),
    }
}

fn read_fault_line(m: &[u8]) -> Shown {
    let r = read_fault(m);
    read(r.answer, r.place, r.fault == Fault::default(), fault_fields(r.fault))
}

/// A DHC message, which is answered without a place. On a label of a table without groups it is refused as its
/// reader has it, else 24; what the reader takes for another channel is another reader's.
fn read_dhc_line(m: &[u8]) -> Shown {
    let r = read_dhc(m);
    let mut t = empty_table()?;
    let opened = t.open(opened_by_us(settings(LABEL, 17, 1_000_000)), 0);
    let received = t.receive(ours(LABEL), m, 0);
    let expected = if r.answer == 0 { 24 } else { r.answer };
    if r.answer != 5 && (opened, received) != (0, expected) {
        return Err(format!("received it is answered {received}"));
    }
    match r.answer {
        0 => Ok(Some(answered(0, &dhc_fields(r.dhc)))),
        n if r.dhc == Dhc::default() => Ok(Some(n.to_string())),
        n => Err(format!("refused with {n}, and yet {}", dhc_fields(r.dhc))),
    }
}

/// Discriminator and period of a configuration, by the type of BFD Authentication.
fn read_configuration_line(authentication: u16, octets: &[u8]) -> Shown {
    let r = read_configuration(octets, authentication);
    match r.answer {
        0 => Ok(Some(answered(0, &numbers(&[r.discriminator.into(), r.period.into()])))),
        n if r == (ConfigurationRead { answer: n, ..ConfigurationRead::default() }) => Ok(Some(n.to_string())),
        n => Err(format!("refused with {n}, and yet {r:?}")),
    }
}

/// The channel of a header alone. The reader of its kind finds it short, of all its octets, and the
/// other two another channel, at 2; a header that is refused is refused by all three, at one place. So
/// it is where it comes in on a label.
fn kind_line(m: &[u8]) -> Shown {
    let (cc, cv, fault) = (read_cc(m), read_cv(m), read_fault(m));
    let answers = [(cc.answer, cc.place), (cv.answer, cv.place), (fault.answer, fault.place)];
    let (short, other) = ((3, m.len() as u64), (5, 2));
    let (shown, expected) = match answers {
        a if a == [short, other, other] => ("0, 34".to_string(), 3),
        a if a == [other, short, other] => ("0, 35".to_string(), 3),
        a if a == [other, other, short] => ("0, 88".to_string(), 3),
        [(n, place), _, _] if answers == [(n, place); 3] => (format!("{n} {place}"), n),
        _ => return Err(format!("the readers answer {answers:?}")),
    };
    let mut t = empty_table()?;
    let opened = t.open(opened_by_us(settings(LABEL, 17, 1_000_000)), 0);
    let received = t.receive(ours(LABEL), m, 0);
    if (opened, received) != (0, expected) {
        return Err(format!("{shown}, and received it is answered {received}"));
    }
    Ok(Some(shown))
}

/// A buffer of ee, and what is written into it.
fn write_line(word: &str, w: &mut Words) -> Shown {
    let mut buffer = vec![0xee; w.number()?];
    let answer = match word {
        "write-cc" => write_cc_message(&mut buffer, packet_by(w)?),
        "write-cv" => {
            let p = packet_by(w)?;
            write_cv_message(&mut buffer, p, mep_by(w)?)
        }
        "write-fault" => write_fault_message(&mut buffer, fault_by(w)?),
        "write-dhc" => write_dhc_message(&mut buffer, dhc_by(w)?),
        "write-configuration" => write_configuration(&mut buffer, w.number()?, w.number()?),
        _ => return Err(format!("no such word: {word}")),
    };
    w.end()?;
    Ok(Some(answered(answer, &hex(&buffer))))
}

fn message_line(word: &str, w: &mut Words) -> Shown {
    match word {
        "kind" => kind_line(&w.octets()?),
        "cc" => read_cc_line(&w.octets()?),
        "cv" => read_cv_line(&w.octets()?),
        "mep" => read_mep_line(&w.octets()?),
        "fault" => read_fault_line(&w.octets()?),
        "dhc" => read_dhc_line(&w.octets()?),
        "configuration" => read_configuration_line(w.number()?, &w.octets()?),
        _ => write_line(word, w),
    }
}

// The files.

/// Stories and messages are numbered in a row, so that none is lost.
fn follow(last: &mut u64, number: u64) -> Result<(), String> {
    let before = std::mem::replace(last, number);
    if number != before + 1 {
        return Err(format!("number {number} behind {before}"));
    }
    Ok(())
}

fn play(file: &str, t: &mut Table, last: &mut u64, words: &[&str]) -> Shown {
    let mut w = Words(words.iter());
    let word = w.word()?;
    if ["messages.txt", "configuration.txt", "dhc.txt"].contains(&file) {
        follow(last, number_of(word)?)?;
        return message_line(w.word()?, &mut w);
    }
    if word == "story" {
        follow(last, w.number()?)?;
        *t = empty_table()?;
        return Ok(None);
    }
    if file == "session.txt" {
        return session_line(t, word, &mut w);
    }
    table_line(t, word, &mut w)
}

/// Plays a file; whether all of it is as expected.
fn holds(folder: &str, file: &str) -> Result<bool, String> {
    let text = std::fs::read_to_string(format!("{folder}/{file}")).map_err(|e| format!("{folder}/{file}: {e}"))?;
    let mut t = empty_table()?;
    let (mut last, mut shows, mut wrong) = (0, 0, 0);
    for Case { line, words, expected } in cases_of(&text) {
        let asked = words.join(" ");
        let shown = play(file, &mut t, &mut last, &words);
        let told = shown.clone().unwrap_or_else(Some).unwrap_or("nothing".to_string());
        println!("{file}:{line}: {asked} -> {told}");
        shows += usize::from(expected.is_some());
        if shown.as_ref() != Ok(&expected) {
            wrong += 1;
            let expected = expected.unwrap_or("nothing".to_string());
            eprintln!("cases: {folder}/{file}:{line}: {asked}\n    expected {expected}\n    shown    {told}");
        }
    }
    println!("{file}: {last} cases, {shows} lines, {wrong} of them wrong");
    Ok(wrong == 0 && shows > 0)
}

fn main() -> ExitCode {
    let folder = std::env::args().nth(1).unwrap_or("hosts/cases".to_string());
    let mut held = unsafe { korvezul_version() } == VERSION;
    for file in ["messages.txt", "configuration.txt", "dhc.txt", "session.txt", "table.txt"] {
        held &= holds(&folder, file).unwrap_or_else(|e| {
            eprintln!("cases: {e}");
            false
        });
    }
    if held {
        ExitCode::SUCCESS
    } else {
        ExitCode::FAILURE
    }
}
