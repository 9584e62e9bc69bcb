//! Plays lists of calls over the exported calls and holds what is answered to what stands behind `=>`, as
//! `watch` would print it. Each list begins with an empty table and comes spelled out, as `peer spell` does it: a
//! line has no words to be read but these, and one without words is passed over.
//!
//! TIME LABEL KIND [mode=NUMBER] [party=NUMBER] hex [OCTETS] => ANSWER
//! TIME SERVICE group party=NUMBER id=NUMBER role=NUMBER peer=NUMBER dni=NUMBER => ANSWER
//! TIME 0 ac party=NUMBER id=NUMBER ac=NUMBER => ANSWER
//! TIME 0 return party=NUMBER id=NUMBER => ANSWER
//! 0 0 ask party=NUMBER id=NUMBER => ANSWER
//! spoil PLACE FIELD VALUE
mod korvezul;

use korvezul::*;
use std::path::{Path, PathBuf};
use std::process::ExitCode;

/// A call: what stands in front of its octets, and these. A tick names no party, nor a label.
struct Call<'a> {
    time: u64,
    circuit: Circuit,
    kind: &'a str,
    mode: u8,
    body: Vec<u8>,
}

fn number<N: std::str::FromStr>(word: &str) -> Result<N, String> {
    word.parse().map_err(|_| format!("no number of its field: {word}"))
}

fn octets(hex: &str) -> Result<Vec<u8>, String> {
    let pair = |at| hex.get(at..at + 2).and_then(|pair| u8::from_str_radix(pair, 16).ok());
    let octets = (0..hex.len()).step_by(2).map(pair).collect::<Option<_>>();
    octets.ok_or_else(|| format!("no octets: {hex}"))
}

fn call_of(words: &str) -> Result<Call<'_>, String> {
    let (front, hex) = words.split_once(" hex").ok_or("no octets")?;
    let mut front = front.split_whitespace();
    let mut word = || front.next().ok_or("a word is missing");
    let (time, label, kind) = (number(word()?)?, number(word()?)?, word()?);
    let circuit = Circuit { label, party: party_of(label) };
    let mut call = Call { time, circuit, kind, mode: COORDINATED, body: octets(hex.trim())? };
    for word in front {
        match word.split_once('=') {
            Some(("mode", value)) => call.mode = number(value)?,
            Some(("party", value)) => call.circuit.party = number(value)?,
            _ => return Err(format!("no such word: {word}")),
        }
    }
    Ok(call)
}

/// A call on a group: what stands in front of its numbers, and these by their names.
struct OnGroup<'a> {
    time: u64,
    service: u32,
    kind: &'a str,
    numbers: Vec<(&'a str, &'a str)>,
}

fn group_call_of<'a>(words: &'a str) -> Result<OnGroup<'a>, String> {
    let mut words = words.split_whitespace();
    let mut word = || words.next().ok_or("a word is missing");
    let (time, service, kind) = (number(word()?)?, number(word()?)?, word()?);
    let named = |word: &'a str| word.split_once('=').ok_or_else(|| format!("no such word: {word}"));
    Ok(OnGroup { time, service, kind, numbers: words.map(named).collect::<Result<_, _>>()? })
}

impl OnGroup<'_> {
    fn number<N: std::str::FromStr>(&self, name: &str) -> Result<N, String> {
        let found = self.numbers.iter().find(|(other, _)| *other == name);
        found.map_or_else(|| Err(format!("no {name}=")), |(_, value)| number(value))
    }
    fn name(&self) -> Result<GroupName, String> {
        Ok(GroupName { party: self.number("party")?, id: self.number("id")? })
    }
    fn settings(&self) -> Result<GroupSettings, String> {
        let (id, peer, dni) = (self.number("id")?, self.number("peer")?, self.number("dni")?);
        Ok(GroupSettings { id, peer, service: self.service, dni, role: self.number("role")? })
    }
}

fn number_at(octets: &[u8]) -> u32 {
    octets.iter().fold(0, |number, octet| number << 8 | u32::from(*octet))
}

fn mep_of(kind: u16, value: &[u8]) -> MepId {
    let [global, node, local] = [0, 4, 8].map(|at| number_at(&value[at..at + 4]));
    MepId { global, node, local, kind, ..MepId::default() }
}

/// The settings in the body of an open. A body that does not fit has discriminator 0 and is answered 10 at the
/// latest; twelve octets are no value of a pseudowire.
fn settings_of(call: &Call) -> Settings {
    let (b, none) = (&call.body, Settings { label: call.circuit.label, ..Settings::default() });
    if b.len() != 35 || b[34] > 3 || b[8..10] == [0, 2] {
        return none;
    }
    let kind = number_at(&b[8..10]) as u16;
    Settings {
        own: mep_of(kind, &b[10..22]),
        expected: mep_of(kind, &b[22..34]),
        discriminator: number_at(&b[..4]),
        period: number_at(&b[4..8]),
        follow_link: b[34] & 1,
        follow_lock: b[34] >> 1,
        mode: call.mode,
        ..none
    }
}

/// Receive answers without a place: the reader of the message's channel has it, and where the header is refused all
/// three say the same. That of DHC messages has none; what is too short is so at its end, of whatever channel.
fn received(t: &mut Table, call: &Call) -> String {
    let answer = t.receive(call.circuit, &call.body, call.time);
    let place = match (answer, call.body.get(3)) {
        (3, _) => call.body.len() as u64,
        (4..=8, Some(0x23)) => read_cv(&call.body).place,
        (4..=8, Some(0x58)) => read_fault(&call.body).place,
        (4..=8, _) => read_cc(&call.body).place,
        _ => return answer.to_string(),
    };
    format!("{answer} {place}")
}

fn reported(t: &mut Table, circuit: Circuit) -> String {
    let r = t.report(circuit);
    match r.answer {
        0 => format!("0 {} {} {} {} {} {} {}", r.state, r.crossing, r.loss, r.alarm, r.rdi, r.blocked, r.conditions),
        answer => answer.to_string(),
    }
}

/// What a group tells; beside a refusal it must tell nothing.
fn asked(t: &mut Table, name: GroupName) -> Result<String, String> {
    let GroupAnswer { answer, group } = t.ask_group(name);
    match answer {
        0 => Ok(format!("0 {} {} {}", group.pw, group.ac, group.forwarding)),
        _ if group != GroupReport::default() => Err(format!("refused with {answer}, and the group tells something")),
        _ => Ok(answer.to_string()),
    }
}

/// What is written into a buffer of ee, and that nothing behind it is touched. `size` says how much was.
fn written(write: impl FnOnce(&mut [u8]) -> u32, size: impl FnOnce(&[u8]) -> u64) -> Result<String, String> {
    let mut buffer = [0xee; CV_OCTETS + 1];
    let answer = write(&mut buffer);
    let size = if answer == 0 { size(&buffer) as usize } else { 0 };
    if buffer[size..].iter().any(|octet| *octet != 0xee) {
        return Err("more is touched than is written".to_string());
    }
    let hex: String = buffer[..size].iter().map(|octet| format!("{octet:02x}")).collect();
    Ok(format!("{answer} {hex}").trim_end().to_string())
}

/// What a call on a group is answered.
fn answered_of_group(t: &mut Table, call: &OnGroup) -> Result<String, String> {
    match call.kind {
        "group" => {
            let group = Grouping { settings: call.settings()?, party: call.number("party")? };
            Ok(t.set_group(group, call.time).to_string())
        }
        "ac" => Ok(t.set_ac(AcOf { group: call.name()?, ac: call.number("ac")? }, call.time).to_string()),
        "return" => Ok(t.return_group(call.name()?, call.time).to_string()),
        "ask" => asked(t, call.name()?),
        kind => Err(format!("no such call on a group: {kind}")),
    }
}

/// What any other call is answered.
fn answered(t: &mut Table, call: &Call) -> Result<String, String> {
    let (circuit, time) = (call.circuit, call.time);
    let answer = match call.kind {
        "tick" => t.tick(time).to_string(),
        "open" => t.open(Opening { settings: settings_of(call), party: circuit.party }, time).to_string(),
        "close" => t.close(circuit, time).to_string(),
        "lock" => t.lock(circuit, time).to_string(),
        "unlock" => t.unlock(circuit, time).to_string(),
        "receive" => received(t, call),
        "report" => reported(t, circuit),
        "write-cc" => written(|b| t.write_cc(circuit, b), |b| read_cc(b).place)?,
        "write-cv" => written(|b| t.write_cv(circuit, b), |b| read_cv(b).place)?,
        kind => return Err(format!("no such call: {kind}")),
    };
    Ok(answer)
}

/// What a line is answered. A refused call, a report and asking of a group leave row and head as they were.
fn said(t: &mut Table, words: &str) -> Result<String, String> {
    let before = t.clone();
    let (kind, answer) = if words.contains(" hex") {
        let call = call_of(words)?;
        (call.kind, answered(t, &call)?)
    } else {
        let call = group_call_of(words)?;
        (call.kind, answered_of_group(t, &call)?)
    };
    let refused = !answer.starts_with("0");
    if (refused || kind == "report" || kind == "ask") && *t != before {
        return Err(format!("answered {answer}, and the table has changed"));
    }
    Ok(answer)
}

/// A field of a stored record, changed past every call.
fn spoil(t: &mut Table, words: &str) -> Result<(), String> {
    let [place, field, value] = words.split_whitespace().collect::<Vec<_>>()[..] else {
        return Err("spoil PLACE FIELD VALUE".to_string());
    };
    let record = t.row.get_mut(number::<usize>(place)?).ok_or("no such place")?;
    match field {
        "label" => record.settings.label = number(value)?,
        "my" => record.settings.discriminator = number(value)?,
        "remote" => record.peer.remote = number(value)?,
        "mode" => record.settings.mode = number(value)?,
        "state" => record.state = number(value)?,
        "multiplier" => record.peer.multiplier = number(value)?,
        "timed" => record.timed = number(value)?,
        "group" => record.group.set = number(value)?,
        "group-id" => record.group.id = number(value)?,
        "group-role" => record.group.role = number(value)?,
        "group-peer" => record.group.peer = number(value)?,
        "group-dni" => record.group.dni = number(value)?,
        "group-pw" => record.group.pw = number(value)?,
        "group-ac" => record.group.ac = number(value)?,
        _ => return Err(format!("no such field: {field}")),
    }
    Ok(())
}

fn played(t: &mut Table, line: &str) -> Result<(), String> {
    if line.is_empty() {
        return Ok(());
    }
    if let Some(words) = line.strip_prefix("spoil ") {
        return spoil(t, words);
    }
    let (words, expected) = line.split_once(" => ").ok_or("no answer is named")?;
    let answer = said(t, words)?;
    if answer != expected {
        return Err(format!("expected {expected}, answered {answer}"));
    }
    Ok(())
}

/// Plays a list: how many calls it has, and how many lines are not as they should be.
fn play(path: &Path) -> Result<(u64, u64), String> {
    let text = std::fs::read_to_string(path).map_err(|e| format!("{}: {e}", path.display()))?;
    let mut t = Table::new();
    if t.empty() != 0 {
        return Err("a row is not made empty".to_string());
    }
    let (mut calls, mut wrong) = (0, 0);
    for (i, line) in text.lines().enumerate() {
        calls += u64::from(!line.is_empty() && !line.starts_with("spoil "));
        if let Err(difference) = played(&mut t, line) {
            wrong += 1;
            eprintln!("lists: {}, line {}: {difference}", path.display(), i + 1);
        }
    }
    Ok((calls, wrong))
}

fn lists_of(folder: &str) -> Result<Vec<PathBuf>, String> {
    let entries = std::fs::read_dir(folder).map_err(|e| format!("{folder}: {e}"))?;
    let mut paths: Vec<_> = entries.filter_map(|entry| Some(entry.ok()?.path())).collect();
    paths.retain(|path| path.extension().is_some_and(|ending| ending == "calls"));
    paths.sort();
    Ok(paths)
}

fn play_all(folder: &str) -> Result<bool, String> {
    let (paths, mut calls, mut wrong) = (lists_of(folder)?, 0, 0);
    for path in &paths {
        let (more, others) = play(path)?;
        (calls, wrong) = (calls + more, wrong + others);
    }
    println!("{} lists, {calls} calls, {wrong} of them answered otherwise", paths.len());
    Ok(calls > 0 && wrong == 0)
}

fn main() -> ExitCode {
    let folder = std::env::args().nth(1).unwrap_or_default();
    let same_version = unsafe { korvezul_version() } == VERSION;
    let held = play_all(&folder).unwrap_or_else(|e| {
        eprintln!("lists: {e}");
        false
    });
    match held && same_version {
        true => ExitCode::SUCCESS,
        false => ExitCode::FAILURE,
    }
}
