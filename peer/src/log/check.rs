//! Questions on made logs: both ways of this program held to each other, or
//! another program to them.

use super::cover::Cover;
use super::index::{self, Index, MOST_ENTRIES};
use super::records::{self, Logged};
use super::{all, answer_text, ask, told, Refusal};
use crate::capture::Kind;
use crate::check::run;
use crate::make;
use crate::random::Random;
use crate::table::LARGEST_READING;
use std::fs;
use std::io;
use std::path::{Path, PathBuf};

/// A label that no made capture opens.
const NEVER_OPEN: u32 = 999_999;
/// How many labels that were open are asked for, and how many records are asked
/// beside for each.
const LABELS: usize = 3;
const RECORDS: usize = 12;

/// A made log, the index of a label, and what is asked of it with the answers.
pub struct Case {
    pub log: Vec<u8>,
    pub index: Index,
    pub questions: Vec<(u64, String)>,
}

/// The questions of a seed. Describes the first that the two ways answer
/// differently.
pub fn cases(seed: u64) -> Result<Vec<Case>, String> {
    let log = make::logged(seed);
    let calls = records::all(&log).ok_or(format!("seed {seed}: no log"))?;
    let mut random = Random::new(seed);
    let labels = labels(&calls, &mut random);
    let case = |label| {
        let index = index::build(&log, label, MOST_ENTRIES);
        let index = index.map_err(|refusal| format!("seed {seed}: {refusal:?}"))?;
        let readings = readings(&calls, &index, &mut random);
        let by_all = from_all(&calls, &index, &readings);
        for (reading, expected) in &by_all {
            let by_index = answer_text(&ask::ask(&log, &index, label, *reading));
            if by_index != *expected {
                let asked = format!("seed {seed}: ask LOG {label} {reading}");
                return Err(format!("{asked}\nall: {expected}\nindex: {by_index}"));
            }
        }
        Ok(Case {
            log: log.clone(),
            index,
            questions: by_all,
        })
    };
    labels.into_iter().map(case).collect()
}

/// The answers from reading all.
fn from_all(calls: &[Logged], index: &Index, readings: &[u64]) -> Vec<(u64, String)> {
    let questions: Vec<all::Question> = readings.iter().map(|t| (index.label, *t)).collect();
    let reports = all::reports(calls, &questions);
    let answers = readings.iter().zip(reports).map(|(reading, report)| {
        let answer = match *reading > LARGEST_READING {
            true => Err(Refusal::Reading),
            false => told(report, index, *reading),
        };
        (*reading, answer_text(&answer))
    });
    answers.collect()
}

/// Some labels that were open, one that was not, and 0.
fn labels(calls: &[Logged], random: &mut Random) -> Vec<u32> {
    let opened = |call: &&Logged| call.is_accepted() && call.record.kind == Kind::Open;
    let mut labels: Vec<u32> = calls
        .iter()
        .filter(opened)
        .map(|call| call.record.label)
        .collect();
    labels.sort();
    labels.dedup();
    while labels.len() > LABELS {
        labels.remove(random.below(labels.len() as u64) as usize);
    }
    labels.extend([NEVER_OPEN, 0]);
    labels
}

/// The ends, and one before, at and one after the clock of each entry and the
/// time of some records.
fn readings(calls: &[Logged], index: &Index, random: &mut Random) -> Vec<u64> {
    let mut readings = vec![0, 1, LARGEST_READING, LARGEST_READING + 1, u64::MAX];
    let mut around = |time: u64| {
        readings.extend([time.saturating_sub(1), time, time.saturating_add(1)]);
    };
    index.clocks.iter().for_each(|clock| around(*clock));
    for _ in 0..RECORDS {
        let at = random.below(calls.len() as u64) as usize;
        if let Some(call) = calls.get(at) {
            around(call.record.time);
        }
    }
    readings
}

/// Counts what is asked of seeds 1 to `count` and answered, the same in both
/// ways.
pub fn cover(count: u64, output: &mut impl io::Write) -> io::Result<()> {
    let mut cover = Cover::default();
    for seed in 1..=count {
        for case in cases(seed).map_err(io::Error::other)? {
            cover.add(&case);
        }
    }
    writeln!(output, "{count} logs")?;
    cover.print(output)
}

/// Has the program `index` of a folder build each index, and its program `ask`
/// answer by it: what the file between them holds is theirs.
pub fn check(count: u64, programs: &Path) -> io::Result<Result<u64, String>> {
    let files = Files::new()?;
    let mut asked = 0;
    for seed in 1..=count {
        let cases = match cases(seed) {
            Ok(cases) => cases,
            Err(difference) => return Ok(Err(difference)),
        };
        for case in cases {
            let label = case.index.label.to_string();
            let words = files.write(&case.log, &label, &programs.join("index"))?;
            for (reading, expected) in &case.questions {
                let mut words = words.to_vec();
                words.push(reading.to_string());
                let outcome = run(&programs.join("ask"), &words, &[], 1)?;
                let theirs = String::from_utf8_lossy(&outcome.text);
                if theirs != format!("{expected}\n") || !outcome.ended {
                    return Ok(Err(format!(
                        "seed {seed}: ask LOG INDEX {label} {reading}\n\
                         expected: {expected}\nprogram:  {theirs}"
                    )));
                }
                asked += 1;
            }
        }
    }
    Ok(Ok(asked))
}

/// A folder with a log and its index, gone when it is dropped.
struct Files {
    folder: PathBuf,
}

impl Files {
    fn new() -> io::Result<Files> {
        let name = format!("peer-ask-{}", std::process::id());
        let folder = std::env::temp_dir().join(name);
        fs::create_dir_all(&folder)?;
        Ok(Files { folder })
    }

    /// Writes a log and what the program makes its index, and gives the words
    /// that name both and the label.
    fn write(&self, log: &[u8], label: &str, program: &Path) -> io::Result<[String; 3]> {
        let (one, other) = (self.folder.join("log"), self.folder.join("index"));
        let named = [&one, &other].map(|path| path.to_string_lossy().into_owned());
        let [log_name, index_name] = named;
        fs::write(&one, log)?;
        let label = label.to_string();
        let built = run(program, &[log_name.clone(), label.clone()], &[], 1)?;
        fs::write(&other, built.text)?;
        Ok([log_name, index_name, label])
    }
}

impl Drop for Files {
    fn drop(&mut self) {
        // What is left behind in a folder of temporary files harms nobody.
        let _ = fs::remove_dir_all(&self.folder);
    }
}
