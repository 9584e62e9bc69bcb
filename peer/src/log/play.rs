//! Plays a folder of logs: indexes, buildings and questions with their worked
//! answers.
//!
//! ```text
//! NAME.asks     LABEL READING => ANSWER
//! NAME.index    LABEL => 0 COUNT, then a line for each entry
//! build.txt     LOG LABEL ROOM => 0 COUNT, or the refusal
//! damaged.txt   LOG LABEL | CHANGE; CHANGE .. | ASKED READING => ANSWER
//! ```
//!
//! LOG is a name, at times with a change of the log behind a colon, or `+1` for
//! one tick more at the largest reading. `-` is no change. `free` in an answer
//! stands for seven numbers that no rule fixes.

use super::changes::{change, change_log};
use super::index::{self, Index, MOST_ENTRIES};
use super::records::{self, Logged};
use super::{all, answer_text, ask, index_text, told, Refusal};
use crate::assemble::Mistake;
use crate::capture::{Kind, Record};
use crate::table::LARGEST_READING;
use std::collections::btree_map::{BTreeMap, Entry};
use std::fs;
use std::path::{Path, PathBuf};

/// How many of each were played, and those that came out otherwise.
#[derive(Default)]
pub struct Played {
    pub counts: BTreeMap<&'static str, u64>,
    pub wrong: Vec<String>,
}

impl Played {
    fn add(&mut self, what: &'static str, asked: &str, expected: &str, answer: &str) {
        *self.counts.entry(what).or_default() += 1;
        if !agrees(expected, answer) {
            let line = format!("{what}: {asked} => {answer}, expected {expected}");
            self.wrong.push(line);
        }
    }
}

/// Whether an answer is the expected one, but for what is free.
fn agrees(expected: &str, answer: &str) -> bool {
    match expected.split_once(" free ") {
        None => expected == answer,
        Some((number, looks)) => {
            let words: Vec<&str> = answer.split(' ').collect();
            words.len() == 9 && words[0] == number && words[8] == looks
        }
    }
}

/// Plays all that is in a folder.
pub fn folder(folder: &Path) -> Result<Played, Mistake> {
    let mut played = Played::default();
    for path in files(folder)? {
        let ending = path.extension().and_then(|e| e.to_str()).unwrap_or("");
        let name = path.file_name().and_then(|n| n.to_str()).unwrap_or("");
        let log = || read(&path.with_extension("log"));
        match (name, ending) {
            (_, "asks") => asks(&mut played, name, &log()?, &text(&path)?)?,
            (_, "index") => indexes(&mut played, name, &log()?, &text(&path)?)?,
            ("build.txt", _) => each(&path, |line| build(&mut played, folder, line))?,
            ("damaged.txt", _) => each(&path, |line| damaged(&mut played, folder, line))?,
            _ => {}
        }
    }
    Ok(played)
}

fn files(folder: &Path) -> Result<Vec<PathBuf>, Mistake> {
    let cannot = |error| format!("{}: {error}", folder.display());
    let entries = fs::read_dir(folder).map_err(cannot)?;
    let paths = entries.map(|entry| entry.map(|entry| entry.path()).map_err(cannot));
    let mut paths = paths.collect::<Result<Vec<PathBuf>, Mistake>>()?;
    paths.sort();
    Ok(paths)
}

fn read(path: &Path) -> Result<Vec<u8>, Mistake> {
    fs::read(path).map_err(|error| format!("{}: {error}", path.display()))
}

fn text(path: &Path) -> Result<String, Mistake> {
    String::from_utf8(read(path)?).map_err(|error| format!("{}: {error}", path.display()))
}

fn lines(text: &str) -> impl Iterator<Item = &str> {
    let said = |line: &&str| !line.starts_with('#') && !line.trim().is_empty();
    text.lines().filter(said)
}

/// Does something for each line of a file; a mistake is told with the line.
fn each(path: &Path, mut play: impl FnMut(&str) -> Result<(), Mistake>) -> Result<(), Mistake> {
    for line in lines(&text(path)?) {
        play(line).map_err(|mistake| format!("{}: {line}: {mistake}", path.display()))?;
    }
    Ok(())
}

/// What is asked, and the answer behind the arrow.
fn arrow(line: &str) -> Result<(&str, &str), Mistake> {
    line.split_once(" => ").ok_or(format!("no answer: {line}"))
}

fn numbers<const N: usize>(words: &str) -> Result<[u64; N], Mistake> {
    let numbers = words.split_whitespace().map(str::parse);
    let numbers: Vec<u64> = numbers
        .collect::<Result<_, _>>()
        .map_err(|_| format!("no numbers: {words}"))?;
    let wrong = |all: Vec<u64>| format!("{} numbers for {N}: {words}", all.len());
    numbers.try_into().map_err(wrong)
}

/// Asks in both ways: by the index, and by reading all.
fn asks(played: &mut Played, name: &str, log: &[u8], text: &str) -> Result<(), Mistake> {
    let calls = records::all(log).ok_or(format!("{name}: no whole log"))?;
    let mut questions = Vec::new();
    for line in lines(text) {
        let [label, reading] = numbers(arrow(line)?.0)?;
        questions.push((label as u32, reading));
    }
    let reports = all::reports(&calls, &questions);
    let mut built: BTreeMap<u32, Index> = BTreeMap::new();
    for ((line, (label, reading)), report) in lines(text).zip(questions).zip(reports) {
        let (asked, expected) = arrow(line)?;
        let build = || index::build(log, label, MOST_ENTRIES).map_err(|r| format!("{r:?}"));
        let index = match built.entry(label) {
            Entry::Occupied(there) => there.into_mut(),
            Entry::Vacant(place) => place.insert(build()?),
        };
        let by_index = answer_text(&ask::ask(log, index, label, reading));
        let by_all = match reading > LARGEST_READING {
            true => answer_text(&Err(Refusal::Reading)),
            false => answer_text(&told(report, index, reading)),
        };
        let asked = format!("{name}: {asked}");
        played.add("asked by an index", &asked, expected, &by_index);
        played.add("asked by reading all", &asked, expected, &by_all);
    }
    Ok(())
}

/// Builds the index of each label and compares its entries line by line.
fn indexes(played: &mut Played, name: &str, log: &[u8], text: &str) -> Result<(), Mistake> {
    let mut printed = String::new();
    for line in lines(text).filter(|line| !line.starts_with(' ')) {
        let [label] = numbers(arrow(line)?.0)?;
        let index = index::build(log, label as u32, MOST_ENTRIES);
        printed += &format!("{label} => {}", index_text(&index));
    }
    let mut ours = printed.lines();
    for expected in lines(text) {
        let line = ours.next().unwrap_or("nothing");
        played.add("line of an index", name, expected, line);
    }
    Ok(())
}

fn build(played: &mut Played, folder: &Path, line: &str) -> Result<(), Mistake> {
    let (asked, expected) = arrow(line)?;
    let (name, rest) = asked.split_once(' ').ok_or("no label")?;
    let [label, room] = numbers(rest)?;
    let index = index::build(&named(folder, name)?, label as u32, room as usize);
    let text = index_text(&index);
    let first = text.lines().next().unwrap_or("");
    played.add("built", asked, expected, first);
    Ok(())
}

/// The log that a name and what stands behind it stand for.
fn named(folder: &Path, words: &str) -> Result<Vec<u8>, Mistake> {
    let (name, changed) = words.split_once([':', '+']).unwrap_or((words, ""));
    let mut log = read(&folder.join(format!("{name}.log")))?;
    match changed.split_once('=') {
        _ if changed == "1" => last_tick().append_to(&mut log),
        None => {}
        Some((what, value)) => {
            let value = value.parse().map_err(|_| format!("no number: {value}"))?;
            change_log(what, value, &mut log).ok_or(format!("no change: {changed}"))?;
        }
    }
    Ok(log)
}

fn last_tick() -> Logged<'static> {
    let record = Record {
        time: LARGEST_READING,
        label: 0,
        kind: Kind::Tick,
        body: &[],
    };
    let (answer, next) = (0, 0);
    Logged {
        record,
        answer,
        next,
    }
}

fn damaged(played: &mut Played, folder: &Path, line: &str) -> Result<(), Mistake> {
    let (asked, expected) = arrow(line)?;
    let parts: Vec<&str> = asked.split('|').map(str::trim).collect();
    let [log, changes, question] = parts[..] else {
        return Err("three parts with | between them".to_string());
    };
    let (name, label) = log.split_once(' ').ok_or("no label")?;
    let [label] = numbers(label)?;
    let [by, reading] = numbers(question)?;
    let mut log = named(folder, name)?;
    let built = index::build(&log, label as u32, MOST_ENTRIES);
    let mut index = built.map_err(|refusal| format!("{refusal:?}"))?;
    for text in changes.split(';').filter(|text| text.trim() != "-") {
        change(text, &mut log, &mut index)?;
    }
    let answer = answer_text(&ask::ask(&log, &index, by as u32, reading));
    played.add("asked of what is damaged", asked, expected, &answer);
    Ok(())
}
