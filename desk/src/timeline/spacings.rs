//! The spacing of each lane's CCs: a small histogram beside its name, and a table.

use super::page::Picture;
use crate::cli::Failure;
use crate::html::Html;
use crate::programs;
use crate::spacing::{self, Answer, Bins, Parts, Room, COUNT, MIDDLE, PROGRAM};
use std::collections::BTreeMap;

/// The parts of each label; none where the program is not there.
pub type Spacings = Option<BTreeMap<u32, Parts>>;

pub const NOT_THERE: &str =
    "No spacing is shown, because the program spacing was not there to be asked.";

/// Width of a bar with the gap to the next, and height of the greatest.
const STEP: u32 = 10;
const HEIGHT: u32 = 24;
/// Even one pair among many is seen.
const LEAST_HEIGHT: f64 = 1.5;

const COLUMNS: [&str; 7] = [
    "Circuit",
    "Pairs",
    "Least",
    "Greatest",
    "Mean",
    "Sum",
    "Sum of sizes",
];
const CAPTION: &str = "Over pairs of heard CCs that follow each other in one opening and one stretch unlocked: how much later \
    than a period the later one came, in microseconds; less than 0 is early.";

pub fn ask(capture: &[u8]) -> Result<Spacings, Failure> {
    if !programs::is_there(PROGRAM) {
        return Ok(None);
    }
    let circuits = spacing::circuits(capture, None)?;
    let room = Room::among(circuits.len());
    let asked = circuits
        .iter()
        .map(|circuit| Ok((circuit.label, Parts::of(circuit, room)?)));
    asked.collect::<Result<_, Failure>>().map(Some)
}

/// The histogram of a lane; nothing where it has no pair.
pub fn histogram(html: &mut Html, picture: &Picture, label: u32) {
    let asked = picture.spacings.as_ref();
    let Some(parts) = asked.and_then(|spacings| spacings.get(&label)) else {
        return;
    };
    let bins = Bins::of(&parts.parts);
    if bins.greatest() == 0 {
        return;
    }
    let words = words(label, parts);
    let size = format!("0 0 {} {}", COUNT as u32 * STEP, HEIGHT + 1);
    let attributes = [
        ("viewBox", &*size),
        ("class", "spacing"),
        ("role", "img"),
        ("aria-label", &words),
    ];
    html.block("svg", &attributes, |html| {
        html.element("title", &[], |html| html.words(&words));
        // A base line, and an upright one in the middle, which is seen where no pair is on time.
        let (width, middle) = (COUNT as u32 * STEP, MIDDLE as u32 * STEP + STEP / 2);
        let lines = format!("M0 {HEIGHT}.5h{width}M{middle} 0v{HEIGHT}");
        html.empty("path", &[("class", "grid"), ("d", &lines)]);
        for (place, pairs) in bins.pairs.iter().enumerate().filter(|(_, n)| **n > 0) {
            let share = *pairs as f64 / bins.greatest() as f64;
            bar(html, place, share, &bar_words(place, *pairs, parts));
        }
    });
}

/// What is said of a whole histogram on hover.
fn words(label: u32, parts: &Parts) -> String {
    let mut words = spacing::text(label, &parts.answer).trim_end().to_string();
    if parts.answer == Answer::TooLarge {
        words.push_str("; shown is what came before");
    }
    if parts.coarse() > 1 {
        let most = parts.coarse();
        words.push_str(&format!(
            "; shown are the means of up to {most} pairs at a time"
        ));
    }
    words
}

fn bar_words(place: usize, pairs: u64, parts: &Parts) -> String {
    let many = if pairs == 1 { "" } else { "s" };
    let by = match parts.coarse() {
        0 | 1 => "",
        _ => ", by the means of several",
    };
    format!("{}: {pairs} pair{many}{by}", spacing::bin_words(place))
}

/// A bar, and a room as high as all of them in which its words show: a low bar is hard to hit.
fn bar(html: &mut Html, place: usize, share: f64, words: &str) {
    let height = (share * f64::from(HEIGHT)).max(LEAST_HEIGHT);
    let left = (place as u32 * STEP + 1).to_string();
    let width = (STEP - 2).to_string();
    let class = match place {
        MIDDLE => "ontime",
        _ if place < MIDDLE => "early",
        _ => "late",
    };
    html.element("g", &[], |html| {
        html.element("title", &[], |html| html.words(words));
        let tops = [
            (class, f64::from(HEIGHT) - height, height),
            ("touch", 0.0, f64::from(HEIGHT)),
        ];
        for (class, top, height) in tops {
            let attributes = [
                ("class", class),
                ("x", &*left),
                ("y", &*format!("{top:.1}")),
                ("width", &*width),
                ("height", &*format!("{height:.1}")),
            ];
            html.empty("rect", &attributes);
        }
    });
}

pub fn table(html: &mut Html, picture: &Picture) {
    let Some(spacings) = &picture.spacings else {
        return html.line("p", &[("class", "wrong")], NOT_THERE);
    };
    if picture.lanes.is_empty() {
        return html.line("p", &[], "None.");
    }
    html.table(CAPTION, &COLUMNS, |html| {
        for lane in &picture.lanes {
            let answer = spacings.get(&lane.label).map(|parts| &parts.answer);
            let cells = cells(answer);
            let mut row: Vec<&str> = vec![&lane.name];
            row.extend(cells.iter().map(String::as_str));
            html.row(true, &row);
        }
    });
}

/// What stands behind the name of a circuit.
fn cells(answer: Option<&Answer>) -> [String; 6] {
    let none = || "none".to_string();
    match answer {
        Some(Answer::Numbers(numbers)) => [
            numbers.pairs.to_string(),
            numbers.least.map_or_else(none, |least| least.to_string()),
            numbers.greatest.map_or_else(none, |most| most.to_string()),
            spacing::mean(numbers).unwrap_or_else(none),
            numbers.sum.to_string(),
            numbers.sizes.to_string(),
        ],
        _ => {
            let mut cells: [String; 6] = Default::default();
            cells[0] = "refused 21: a number does not fit".to_string();
            cells
        }
    }
}
