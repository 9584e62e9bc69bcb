//! The stretches of a picture in words.

use super::clock::{self, Clock};
use super::page::Picture;
use super::scale::Scale;
use super::stretches::{Stretch, Thing};
use crate::html::Html;

const DEFECT_COLUMNS: [&str; 8] = [
    "Circuit",
    "What",
    "From",
    "To",
    "Lasted",
    "By which message",
    "How old then",
    "What ends it",
];
const STATE_COLUMNS: [&str; 5] = ["Circuit", "State", "From", "To", "Lasted"];

/// All stretches but those of states, with their causes.
pub fn defects(html: &mut Html, picture: &Picture) {
    let is_state = |stretch: &&Stretch| matches!(stretch.thing, Thing::State(_));
    let defects = picture
        .stretches
        .iter()
        .filter(|stretch| !is_state(stretch));
    let mut shown = defects.peekable();
    if shown.peek().is_none() {
        html.line("p", &[], "None.");
        return left_out(html, picture);
    }
    let caption = "In the order in which they began. The message, its age and the end are what why says at the begin.";
    html.table(caption, &DEFECT_COLUMNS, |html| {
        for stretch in shown {
            let name = circuit(picture, stretch.label);
            let [from, to, lasted] = times(stretch, picture);
            let [which, age, ends] = cause(stretch, &picture.clock);
            let what = stretch.thing.words();
            html.row(
                true,
                &[&name, what, &from, &to, &lasted, &which, &age, &ends],
            );
        }
    });
    if picture.without_cause > 0 {
        let words = format!(
            "For {} later ones why was not asked; desk events --causes all asks for all.",
            picture.without_cause
        );
        html.line("p", &[], &words);
    }
    left_out(html, picture);
}

pub fn states(html: &mut Html, picture: &Picture) {
    html.table(
        "In the order in which they began.",
        &STATE_COLUMNS,
        |html| {
            for stretch in &picture.stretches {
                if let Thing::State(_) = stretch.thing {
                    let name = circuit(picture, stretch.label);
                    let [from, to, lasted] = times(stretch, picture);
                    html.row(true, &[&name, stretch.thing.words(), &from, &to, &lasted]);
                }
            }
        },
    );
    left_out(html, picture);
}

fn left_out(html: &mut Html, picture: &Picture) {
    if picture.left_out > 0 {
        let words = format!(
            "{} later stretches are in no table here, to keep the page small; desk events has all.",
            picture.left_out
        );
        html.line("p", &[], &words);
    }
}

fn circuit(picture: &Picture, label: u32) -> String {
    let lane = picture.lanes.iter().find(|lane| lane.label == label);
    lane.map_or_else(|| format!("label {label}"), |lane| lane.name.clone())
}

/// From, to and how long, with the records that brought and ended it.
fn times(stretch: &Stretch, picture: &Picture) -> [String; 3] {
    let by = |record: Option<u64>| {
        record.map_or_else(
            || ", by time alone".to_string(),
            |record| format!(", record {record}"),
        )
    };
    let clock = &picture.clock;
    let from = format!("{}{}", clock.exact(stretch.from), by(stretch.begun_by));
    let to = match stretch.to {
        Some(to) => format!("{}{}", clock.exact(to), by(stretch.ended_by)),
        None => "stands at the end".to_string(),
    };
    let end = stretch.to.unwrap_or(picture.scale.last);
    let lasted = clock::seconds(end.saturating_sub(stretch.from));
    [from, to, format!("{lasted} s")]
}

fn cause(stretch: &Stretch, clock: &Clock) -> [String; 3] {
    match &stretch.cause {
        None => Default::default(),
        Some(cause) => [
            format!(
                "record {} at {}, {}",
                cause.record,
                clock.exact(cause.reading),
                cause.words
            ),
            cause.age.clone(),
            clock.beside(&cause.ends),
        ],
    }
}

/// What is said of a bar on hover.
pub fn title(stretch: &Stretch, name: &str, scale: &Scale, clock: &Clock) -> String {
    let to = match stretch.to {
        Some(to) => format!("to {}", clock.exact(to)),
        None => format!("on, and stands at the end, {}", clock.exact(scale.last)),
    };
    let mut title = format!(
        "{name}: {}, from {} {to}",
        stretch.thing.words(),
        clock.exact(stretch.from)
    );
    let [which, age, ends] = cause(stretch, clock);
    if !which.is_empty() {
        title.push_str(&format!(
            "\nwhich: {which}\nhow old then: {age}\nends: {ends}"
        ));
    }
    title
}
