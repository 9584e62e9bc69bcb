//! `desk log`: a capture with the answers of `watch` as a log, and back; and whether the answers of a
//! log are those of `watch`.

mod check;
mod turn;

use crate::cli::{self, Done, Failure, Words};
use crate::text::records::Records;
use std::fs::File;
use std::io::BufReader;

const HELP: &str = "usage: desk log CAPTURE > log
       desk log --back LOG > capture
       desk log --check LOG

Makes a log of a capture: the same records, each with the answer of `watch`. A log has 65,535
records at most.

  --back    the capture of a log: the same records without their answers
  --check   says which records of a log are answered otherwise by `watch`: what can be asked of a
            log is proved for one whose answers are those of our run

KORVEZUL_BIN names the folder of `watch` (target/bin).
";

/// How much is read at once.
const ROOM: usize = 1 << 18;

pub fn run(words: &[String]) -> Done {
    let words = Words::of(words, &[], &["--back", "--check"])?;
    if words.has("--help") {
        return cli::say(HELP);
    }
    match (words.has("--back"), words.has("--check")) {
        (false, false) => turn::to_log(words.plain(["CAPTURE"])?[0]),
        (true, false) => turn::to_capture(words.plain(["LOG"])?[0]),
        (false, true) => check::check(words.plain(["LOG"])?[0]),
        (true, true) => Err(Failure::usage("`--back` and `--check` do not go together")),
    }
}

fn open(path: &str) -> Result<File, Failure> {
    let cannot = |error| Failure::new(format!("cannot read {path}: {error}"));
    let file = File::open(path).map_err(cannot)?;
    match file.metadata()?.is_file() {
        true => Ok(file),
        // It may be read twice, here and by `watch`.
        false => Err(Failure::new(format!("{path} is no regular file"))),
    }
}

fn records(path: &str) -> Result<Records<'_, BufReader<File>>, Failure> {
    let file = BufReader::with_capacity(ROOM, open(path)?);
    Ok(Records::of(path, file))
}

/// Where a file goes wrong.
fn cut(path: &str, offset: u64, behind: u64) -> Failure {
    Failure::new(format!(
        "{path}: offset {offset}: no whole record behind record {behind}"
    ))
}

fn no_header(path: &str, of: &str) -> Failure {
    Failure::new(format!("{path}: offset 0: not the header of a {of}"))
}
