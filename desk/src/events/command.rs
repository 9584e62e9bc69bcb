//! The command `desk events`.

use super::clock::Epoch;
use super::{causes, find, words, Damage, Ends, Event, Options};
use crate::cli::{self, Done, Failure, Words};
use crate::programs;
use crate::spacing::{self, Answer};
use std::io::{self, BufWriter, IsTerminal, StdoutLock, Write};

const HELP: &str = "usage: desk events CAPTURE [--label L] [--from T] [--to T] [--json] [--epoch TIME] [--no-causes | --causes all] [--spacing]

Prints each change of a circuit, one to a line and in order: opened, closed, state, loss, alarm,
held-back alarm, crossing and remote defect, with its exact reading, also where no record stands. A
loss, an alarm, a held-back alarm and a crossing that begin have their cause behind them, as `why`
answers: which record, how old, what ends it. What stands when a circuit is closed ends with it.
What ends by time at the very reading of a record that brings it again has a line for each. Nothing
is said of readings behind the capture's last one.

  --label L        only this label
  --from T, --to T only readings from T to T, in microseconds; both included
  --json           one object of JSON to a line
  --epoch TIME     the wall clock at reading 0, in seconds since 1970 or as 2026-11-16T05:40:00Z; each reading is then
                   shown as a time of day too
  --no-causes      does not ask `why`
  --causes all     asks `why` as often as there are causes; otherwise 2,000 times at most
  --spacing        behind the events a line for each circuit on the spacing of its CCs over the whole capture, as
                   `spacing` answers: over pairs of heard CCs, how much later than a period the later one came, in
                   microseconds (less than 0: early); number of pairs, least, greatest, mean, sum of sizes
";

pub fn run(given: &[String]) -> Done {
    let valued = ["--label", "--from", "--to", "--epoch", "--causes"];
    let given = Words::of(given, &valued, &["--json", "--no-causes", "--spacing"])?;
    if given.has("--help") {
        return cli::say(HELP);
    }
    let [path] = given.plain(["CAPTURE"])?;
    let options = options(&given)?;
    let most = most_causes(&given)?;
    let spacing = spacing_line(&given)?;
    let epoch = epoch(&given)?;
    let line = if given.has("--json") {
        words::json
    } else {
        words::text
    };
    let capture = std::fs::read(path).map_err(|error| Failure::new(format!("{path}: {error}")))?;
    let mut paper = Paper::new();
    let mut each = |event: Event| paper.put(&line(&event, epoch.as_ref()));
    let ends = find::find(&capture, &options, most, &mut each)?;
    if let Some(line) = spacing {
        put_spacing(&mut paper, &capture, options.label, line)?;
    }
    paper.output.flush()?;
    tell_ends(path, &ends)
}

/// Where the lines go.
struct Paper {
    output: BufWriter<StdoutLock<'static>>,
    /// Progress is shown on the same screen: it has to go before a line comes.
    shared: bool,
}

impl Paper {
    fn new() -> Paper {
        Paper {
            output: BufWriter::new(io::stdout().lock()),
            shared: io::stdout().is_terminal() && io::stderr().is_terminal(),
        }
    }

    fn put(&mut self, line: &str) -> Done {
        if self.shared {
            eprint!("\r\x1b[K");
        }
        self.output.write_all(line.as_bytes())?;
        if self.shared {
            self.output.flush()?;
        }
        Ok(())
    }
}

fn options(given: &Words) -> Result<Options, Failure> {
    let label = match given.value("--label") {
        Some(word) => Some(number(word, "--label")?),
        None => None,
    };
    let from = given
        .value("--from")
        .map_or(Ok(0), |word| number(word, "--from"))?;
    let to = given
        .value("--to")
        .map_or(Ok(u64::MAX), |word| number(word, "--to"))?;
    let causes = !given.has("--no-causes");
    Ok(Options {
        label,
        from,
        to,
        causes,
    })
}

/// A number of the command line; commas may stand in it, as in a text of a capture.
fn number<N: std::str::FromStr>(word: &str, option: &str) -> Result<N, Failure> {
    let digits = word.replace(',', "");
    let plain = digits.bytes().all(|octet| octet.is_ascii_digit());
    let number = digits.parse().ok().filter(|_| plain);
    number.ok_or_else(|| Failure::usage(format!("{option}: no number, or too large: `{word}`")))
}

fn most_causes(given: &Words) -> Result<u64, Failure> {
    match given.value("--causes") {
        None => Ok(causes::MOST),
        Some("all") if given.has("--no-causes") => Err(Failure::usage(
            "`--causes all` and `--no-causes` do not go together",
        )),
        Some("all") => Ok(u64::MAX),
        Some(word) => Err(Failure::usage(format!("--causes: `all`, and not `{word}`"))),
    }
}

/// The line on a label's spacing, as text or as JSON.
type SpacingLine = fn(u32, &Answer) -> String;

/// How a circuit's spacing is said, if it is wanted.
fn spacing_line(given: &Words) -> Result<Option<SpacingLine>, Failure> {
    if !given.has("--spacing") {
        return Ok(None);
    }
    if given.has("--from") || given.has("--to") {
        let wrong = "`--spacing` is of the whole capture, without `--from` and `--to`";
        return Err(Failure::usage(wrong));
    }
    if !programs::is_there(spacing::PROGRAM) {
        let program = programs::program(spacing::PROGRAM);
        return Err(Failure::new(format!(
            "no spacing can be shown: {} is not there ({})",
            program.display(),
            programs::HINT
        )));
    }
    Ok(Some(match given.has("--json") {
        true => spacing::json,
        false => spacing::text,
    }))
}

/// A line for each circuit.
fn put_spacing(paper: &mut Paper, capture: &[u8], label: Option<u32>, line: SpacingLine) -> Done {
    for circuit in spacing::circuits(capture, label)? {
        let answer = Answer::of(&circuit)?;
        paper.put(&line(circuit.label, &answer))?;
    }
    Ok(())
}

fn epoch(given: &Words) -> Result<Option<Epoch>, Failure> {
    let Some(word) = given.value("--epoch") else {
        return Ok(None);
    };
    let epoch = Epoch::read(word);
    let wrong = || Failure::usage(format!("--epoch: no seconds since 1970: `{word}`"));
    epoch.ok_or_else(wrong).map(Some)
}

/// What was left out, and what is wrong with the capture: the events before it are told.
fn tell_ends(path: &str, ends: &Ends) -> Done {
    if ends.without_cause > 0 {
        let (most, left) = (causes::MOST, ends.without_cause);
        eprintln!(
            "desk events: {path}: `why` was asked {most} times; {left} more events have causes, \
             which are not shown (`--causes all` asks for all)"
        );
    }
    match ends.damage {
        None => Ok(()),
        Some(Damage::BadHeader) => Err(Failure::new(format!(
            "{path}: offset 0: not the header of a capture"
        ))),
        Some(Damage::Cut { offset }) => {
            let records = ends.records;
            Err(Failure::new(format!(
                "{path}: offset {offset}: no whole record behind record {records}"
            )))
        }
    }
}
