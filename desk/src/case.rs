//! `desk case`: a page for the regulator. For each stretch in which an alarm was held back or traffic
//! blocked on a label: which message, how old, what ends it, as `why` says it.

mod moments;
mod page;
mod theorems;
mod versions;

use crate::cli::{self, Done, Failure, Progress, Words};
use crate::events::{self, Ends, Options};
use crate::sessions::Session;
use crate::sha256;
use crate::timeline::clock::Clock;
use crate::timeline::stretches::{Standing, Stretch};
use crate::timeline::{self, circuit_name, file_name, read_capture, read_sessions};
use moments::{Asked, Moment, Questions};
use page::{Case, Finding, Renewal};

/// A page has no more stretches than this: each is asked of the whole capture several times.
const MOST_STRETCHES: usize = 100;
/// A page asks `why` no more often than this for the messages that renewed a stretch.
const MOST_QUESTIONS: usize = 2_000;

const HELP: &str = "usage: desk case CAPTURE LABEL --from T --to T [--sessions FILE] [--epoch TIME] > page.html
One page of HTML, to be read or printed: each stretch between the two readings in which an alarm was held
back or traffic blocked on the label, with what why answers at its begin and at its end (which message,
how old, what ends it), the messages that renewed it, the capture's SHA-256, the versions, and which
theorem stands behind which line. LABEL may also be the name of a circuit in the sessions file.
  --from T, --to T   readings in microseconds, both included
  --sessions FILE    names of the circuits (see desk import)
  --epoch TIME       the wall clock at reading 0, in seconds since 1970 or as 2026-11-16T05:40:00Z
";

pub fn run(words: &[String]) -> Done {
    let words = Words::of(words, &["--from", "--to", "--sessions", "--epoch"], &[])?;
    if words.has("--help") {
        return cli::say(HELP);
    }
    let [path, label] = words.plain(["CAPTURE", "LABEL"])?;
    let window = window(&words)?;
    let clock = Clock::of(words.value("--epoch"))?;
    let sessions = read_sessions(words.value("--sessions"))?;
    let label = read_label(label, &sessions)?;
    let capture = read_capture(path)?;
    let case = case(&capture, path, label, window, clock, &sessions)
        .map_err(|failure| Failure::new(format!("{path}: {failure}")))?;
    cli::say(&page::write(&case))?;
    match case.wrong {
        Some(wrong) => Err(Failure::new(format!("{path}: {wrong}"))),
        None => Ok(()),
    }
}

fn window(words: &Words) -> Result<(u64, u64), Failure> {
    let reading = |option: &str| match words.value(option) {
        Some(word) => Clock::reading(word, option),
        None => Err(Failure::usage(format!("wants {option} T"))),
    };
    let (from, to) = (reading("--from")?, reading("--to")?);
    match from <= to {
        true => Ok((from, to)),
        false => Err(Failure::usage("--from is behind --to")),
    }
}

/// A label, or the name of a circuit.
fn read_label(word: &str, sessions: &[Session]) -> Result<u32, Failure> {
    let named = sessions
        .iter()
        .find(|session| session.name == word)
        .map(|session| session.label);
    let label = named.or_else(|| word.parse().ok());
    label.ok_or_else(|| {
        Failure::usage(format!(
            "`{word}` is no label and no name of the sessions file"
        ))
    })
}

fn case(
    capture: &[u8],
    path: &str,
    label: u32,
    window: (u64, u64),
    clock: Clock,
    sessions: &[Session],
) -> Result<Case, Failure> {
    let (mut stretches, ends) = stretches(capture, label, window)?;
    if let Some(events::Damage::BadHeader) = ends.damage {
        return Err(Failure::new("no capture: bad header at offset 0"));
    }
    let questions = Questions::of(capture, label)?;
    let left_out = stretches.len().saturating_sub(MOST_STRETCHES);
    stretches.truncate(MOST_STRETCHES);
    let findings = findings(&questions, stretches)?;
    Ok(Case {
        capture: file_name(path),
        sha256: sha256::hex(capture),
        octets: capture.len(),
        records: ends.records,
        last: questions.last(),
        label,
        name: circuit_name(sessions, label),
        window,
        clock: clock.on_day_of(window.0),
        findings,
        left_out,
        versions: versions::all()?,
        wrong: timeline::wrong(&ends),
    })
}

/// The stretches of the label that touch the window, whole: a stretch that began before it has its begin.
fn stretches(
    capture: &[u8],
    label: u32,
    (from, to): (u64, u64),
) -> Result<(Vec<Stretch>, Ends), Failure> {
    let mut found = Vec::new();
    let mut standing = Standing::new();
    let mut keep = |stretch: Stretch| {
        let touches = stretch.from <= to && stretch.to.map_or(true, |end| end > from);
        if touches && Asked::of(stretch.thing).is_some() {
            found.push(stretch);
        }
    };
    let options = Options {
        label: Some(label),
        causes: false,
        ..Options::default()
    };
    let ends = events::find(capture, &options, &mut |event| {
        standing.take(event, &mut keep);
        Ok(())
    })?;
    if ends.damage != Some(events::Damage::BadHeader) && standing.labels().next().is_none() {
        return Err(Failure::new(format!("no session ever had label {label}")));
    }
    standing.finish(&mut keep);
    found.sort_by_key(|stretch| stretch.order);
    Ok((found, ends))
}

fn findings(questions: &Questions, stretches: Vec<Stretch>) -> Result<Vec<Finding>, Failure> {
    let mut progress = Progress::start("stretches", stretches.len() as u64);
    let mut left = MOST_QUESTIONS;
    let mut findings = Vec::new();
    for stretch in stretches {
        progress.at(findings.len() as u64);
        findings.push(find(questions, stretch, &mut left)?);
    }
    Ok(findings)
}

/// Asks all that the page says of a stretch.
fn find(questions: &Questions, stretch: Stretch, left: &mut usize) -> Result<Finding, Failure> {
    let asked = Asked::of(stretch.thing).unwrap_or(Asked::Crossing);
    let stands = |moments| {
        let found = questions.first(asked, moments, true)?;
        found.ok_or_else(|| {
            Failure::new(format!(
                "why does not name what watch shows at {}",
                stretch.from
            ))
        })
    };
    let (begin, at_begin) = stands(questions.begins(&stretch))?;
    let (last, at_last) = stands(questions.lasts(&stretch))?;
    let at_end = questions.first(asked, questions.ends(&stretch), false)?;
    let loss = match asked {
        Asked::HeldBack => Some(questions.ask(Asked::Loss, begin)?),
        _ => None,
    };
    let (renewals, not_asked) = renewals(questions, asked, begin, last, left)?;
    Ok(Finding {
        asked,
        stretch,
        begin,
        at_begin,
        loss,
        last,
        at_last,
        at_end,
        renewals,
        not_asked,
    })
}

/// The messages that renewed a stretch behind its begin, and how many were not asked about.
fn renewals(
    questions: &Questions,
    asked: Asked,
    begin: Moment,
    last: Moment,
    left: &mut usize,
) -> Result<(Vec<Renewal>, usize), Failure> {
    let candidates = questions.candidates(asked, begin.records, last.records);
    let now = candidates.len().min(*left);
    *left -= now;
    let mut renewals = Vec::new();
    for place in candidates.iter().take(now) {
        if let Some((record, answer)) = questions.renewed(asked, *place)? {
            renewals.push(Renewal { record, answer });
        }
    }
    Ok((renewals, candidates.len() - now))
}
