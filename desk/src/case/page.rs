//! The regulator's page.

use super::moments::{Answer, Asked, Moment};
use super::theorems;
use crate::html::{self, Html};
use crate::timeline::clock::{seconds, Clock};
use crate::timeline::stretches::Stretch;

const STYLE: &str = include_str!("style.css");
const MESSAGE_COLUMNS: [&str; 5] = [
    "Record",
    "At",
    "Message",
    "Behind the one before",
    "Would have ended it",
];

/// All that the page says.
pub struct Case {
    pub capture: String,
    pub sha256: String,
    pub octets: usize,
    pub records: u64,
    /// The last reading of the capture.
    pub last: u64,
    pub label: u32,
    pub name: String,
    pub window: (u64, u64),
    pub clock: Clock,
    pub findings: Vec<Finding>,
    /// Later stretches of this time that are not on the page.
    pub left_out: usize,
    pub versions: Vec<(String, String)>,
    pub wrong: Option<String>,
}

/// A stretch, and what `why` said of it.
pub struct Finding {
    pub asked: Asked,
    pub stretch: Stretch,
    pub begin: Moment,
    pub at_begin: Answer,
    /// Of an alarm held back: what the loss is timed from.
    pub loss: Option<Answer>,
    pub last: Moment,
    pub at_last: Answer,
    pub at_end: Option<(Moment, Answer)>,
    pub renewals: Vec<Renewal>,
    /// Messages that `why` was not asked about.
    pub not_asked: usize,
}

/// A message that `why` names behind its own record.
pub struct Renewal {
    pub record: u64,
    pub answer: Answer,
}

pub fn write(case: &Case) -> String {
    let title = format!("Alarms held back and traffic blocked on {}", case.name);
    html::page(&title, STYLE, |html| {
        html.line("h1", &[], &title);
        facts(html, case);
        if let Some(wrong) = &case.wrong {
            html.line("p", &[("class", "wrong")], wrong);
        }
        if case.findings.is_empty() {
            html.line(
                "p",
                &[],
                "In this time no alarm was held back on this label and no traffic blocked.",
            );
        }
        for (place, finding) in case.findings.iter().enumerate() {
            stretch(html, case, place + 1, finding);
        }
        if case.left_out > 0 {
            let words = format!(
                "{} later stretches of this time are not on this page: ask for less time at once.",
                case.left_out
            );
            html.line("p", &[("class", "wrong")], &words);
        }
        theorems::write(html);
    })
}

fn facts(html: &mut Html, case: &Case) {
    let clock = &case.clock;
    let (from, to) = case.window;
    let size = format!(
        "{} octets, {} records, last reading {}",
        case.octets,
        case.records,
        clock.exact(case.last)
    );
    let label = case.label.to_string();
    let time = format!(
        "{} to {} (readings {from} to {to})",
        clock.exact(from),
        clock.exact(to)
    );
    html.table("What was asked, and of what", &["Fact", "Value"], |html| {
        html.row(true, &["Circuit", &case.name]);
        html.row(true, &["Label", &label]);
        html.row(true, &["Time", &time]);
        html.row(true, &["Capture", &case.capture]);
        html.row(true, &["SHA-256 of the capture", &case.sha256]);
        html.row(true, &["Length of the capture", &size]);
        for (name, version) in &case.versions {
            html.row(true, &[name, version]);
        }
    });
    html.line("p", &[], &clock.words());
}

fn stretch(html: &mut Html, case: &Case, number: usize, finding: &Finding) {
    html.block("section", &[], |html| {
        heading(html, case, number, finding);
        answers(html, case, finding);
        renewals(html, case, finding);
    });
}

fn heading(html: &mut Html, case: &Case, number: usize, finding: &Finding) {
    let Finding { asked, stretch, .. } = finding;
    let what = match asked {
        Asked::HeldBack => "An alarm was held back",
        _ => "Traffic was blocked",
    };
    let from = case.clock.exact(stretch.from);
    let to = match stretch.to {
        Some(to) => format!("to {}", case.clock.exact(to)),
        None => "on, and it stands at the end of the capture".to_string(),
    };
    let lasted = seconds(stretch.to.unwrap_or(case.last).saturating_sub(stretch.from));
    html.line("h2", &[], &format!("{number}. {what} from {from} {to}"));
    html.line("p", &[], &format!("It lasted {lasted} s."));
}

/// The answers in the order of time, each under its heading.
fn answers(html: &mut Html, case: &Case, finding: &Finding) {
    let asked = finding.asked;
    let begin = (finding.begin, &finding.at_begin);
    answer(html, case, "At its begin", asked, begin);
    if let Some(loss) = &finding.loss {
        answer(
            html,
            case,
            "The loss under it",
            Asked::Loss,
            (finding.begin, loss),
        );
    }
    let last = match finding.stretch.to {
        Some(_) => "At the last reading at which it stood",
        None => "At the end of the capture",
    };
    answer(html, case, last, asked, (finding.last, &finding.at_last));
    if let Some((moment, said)) = &finding.at_end {
        answer(html, case, "At its end", asked, (*moment, said));
    }
}

/// An answer, line by line, each with the theorem behind it.
fn answer(
    html: &mut Html,
    case: &Case,
    heading: &str,
    asked: Asked,
    (moment, answer): (Moment, &Answer),
) {
    html.line("h3", &[], heading);
    let caption = question(case, asked, moment);
    html.table(&caption, &["Question", "Answer", "Theorem"], |html| {
        for line in &answer.lines {
            let shown = case.clock.beside(line);
            html.row(true, &[meaning(line), &shown, theorems::of(asked, line)]);
        }
    });
}

/// How the question was asked, so that anyone can ask it again.
fn question(case: &Case, asked: Asked, moment: Moment) -> String {
    let words = format!("why {} {}", case.label, asked.word());
    match moment.tick {
        None => format!("{words} upto={} < {}", moment.records, case.capture),
        Some(reading) => format!(
            "{words}, asked of the first {} records of {} and a tick at {reading} ({}) behind them",
            moment.records,
            case.capture,
            case.clock.exact(reading)
        ),
    }
}

fn meaning(line: &str) -> &'static str {
    match line.split(' ').next() {
        Some("which:") => "Which message?",
        Some("how") => "How old was it?",
        Some("ends:") => "What would have ended it?",
        _ => "Does it stand?",
    }
}

/// The messages, the one at the begin first.
fn renewals(html: &mut Html, case: &Case, finding: &Finding) {
    html.line("h3", &[], "The messages by which it lasted");
    let first = finding
        .at_begin
        .which()
        .map(|(record, ..)| (record, &finding.at_begin));
    let behind = finding
        .renewals
        .iter()
        .map(|renewal| (renewal.record, &renewal.answer));
    let all: Vec<(u64, &Answer)> = first.into_iter().chain(behind).collect();
    let caption = format!(
        "{}: the one that is named at the begin, and each that why names behind its own record.",
        all.len()
    );
    html.table(&caption, &MESSAGE_COLUMNS, |html| {
        let mut before = None;
        for (record, answer) in all {
            before = message(html, case, record, answer, before);
        }
    });
    if finding.not_asked > 0 {
        let words = format!("{} more messages of this stretch were not asked about one by one; desk events has the changes.", finding.not_asked);
        html.line("p", &[("class", "wrong")], &words);
    }
}

/// A message's row; gives its reading, for the next one.
fn message(
    html: &mut Html,
    case: &Case,
    record: u64,
    answer: &Answer,
    before: Option<u64>,
) -> Option<u64> {
    let (_, reading, words) = answer.which()?;
    let gap = before.map(|before| format!("{} s", seconds(reading.saturating_sub(before))));
    let ends = case
        .clock
        .beside(answer.behind("ends: ").unwrap_or_default());
    let (record, at) = (record.to_string(), case.clock.exact(reading));
    html.row(
        true,
        &[
            &record,
            &at,
            words,
            gap.as_deref().unwrap_or_default(),
            &ends,
        ],
    );
    Some(reading)
}
