//! A lane and the time axis as SVG.

use super::clock::Clock;
use super::lanes::{Bar, Lane, Row, Tick};
use super::scale::{Scale, COLUMNS};
use super::stretches::Thing;
use crate::html::Html;

/// Up to so many lanes have room for words.
const FEW: usize = 8;
const AXIS_HEIGHT: u32 = 22;
/// A bar from this width on has room for the name of its state.
const WORD_WIDTH: f64 = 70.0;

/// How high the rows of a lane are, and how wide is the gutter for their names.
pub struct Layout {
    pub gutter: u32,
    row: u32,
    gap: u32,
    /// The row of the ticks, in which height tells the kind.
    ticks: u32,
}

impl Layout {
    pub fn of(lanes: usize) -> Layout {
        match lanes <= FEW {
            true => Layout {
                gutter: 96,
                row: 14,
                gap: 5,
                ticks: 16,
            },
            false => Layout {
                gutter: 0,
                row: 6,
                gap: 2,
                ticks: 10,
            },
        }
    }

    /// Where a row begins and how high it is; the ticks are the last one.
    fn place(&self, row: usize) -> (u32, u32) {
        let height = if row == Row::ALL.len() {
            self.ticks
        } else {
            self.row
        };
        (self.gap + row as u32 * (self.row + self.gap), height)
    }

    fn height(&self) -> u32 {
        let (top, height) = self.place(Row::ALL.len());
        top + height + self.gap
    }

    fn has_words(&self) -> bool {
        self.gutter > 0
    }
}

fn row_words(row: Row) -> &'static str {
    match row {
        Row::State => "state",
        Row::Loss => "loss",
        Row::Alarm => "alarm",
        Row::Blocked => "blocked",
        Row::RemoteDefect => "remote defect",
    }
}

/// A bar that stands for several over more than a column has the pattern of no single thing.
fn bar_class(bar: &Bar, width: f64) -> &'static str {
    class(bar.thing.filter(|_| bar.times == 1 || width <= 1.0))
}

/// The class that gives a bar its colour and pattern.
pub fn class(thing: Option<Thing>) -> &'static str {
    match thing {
        None => "several",
        Some(Thing::State(0)) => "admin",
        Some(Thing::State(1)) => "down",
        Some(Thing::State(2)) => "init",
        Some(Thing::State(_)) => "up",
        Some(Thing::Loss) => "loss",
        Some(Thing::Alarm) => "alarm",
        Some(Thing::HeldBack) => "held",
        Some(Thing::Blocked) => "blocked",
        Some(Thing::RemoteDefect) => "remote",
    }
}

pub fn tick_class(tick: Tick) -> &'static str {
    match tick {
        Tick::Bfd => "bfd",
        Tick::Fault => "fault",
        Tick::Refused => "refused",
    }
}

/// The time axis.
pub fn axis(html: &mut Html, layout: &Layout, scale: &Scale, clock: &Clock) {
    let size = format!("0 0 {} {AXIS_HEIGHT}", layout.gutter + COLUMNS);
    let (marks, step) = scale.marks(clock);
    html.block(
        "svg",
        &[
            ("viewBox", &size),
            ("class", "axis"),
            ("role", "img"),
            ("aria-label", "time axis"),
        ],
        |html| {
            for mark in marks {
                let place = f64::from(layout.gutter) + scale.place(mark);
                grid_line(html, place, AXIS_HEIGHT);
                let words = clock.mark(mark, step);
                // At the right border there may be no room to the right of the mark.
                let room = f64::from(COLUMNS) - scale.place(mark) > 7.0 * words.len() as f64;
                let (near, anchor) = if room {
                    (place + 3.0, "start")
                } else {
                    (place - 3.0, "end")
                };
                let attributes = [
                    ("x", &*format!("{near:.1}")),
                    ("y", "15"),
                    ("text-anchor", anchor),
                ];
                html.line("text", &attributes, &words);
            }
        },
    );
}

fn grid_line(html: &mut Html, place: f64, height: u32) {
    let path = format!("M{place:.1} 0v{height}");
    html.empty("path", &[("class", "grid"), ("d", &path)]);
}

/// One lane.
pub fn lane(html: &mut Html, lane: &Lane, layout: &Layout, scale: &Scale, clock: &Clock) {
    let size = format!("0 0 {} {}", layout.gutter + COLUMNS, layout.height());
    let words = format!(
        "{}: {} bars, {} messages; the tables below say the same in words",
        lane.name,
        lane.bars.len(),
        lane.messages
    );
    html.block(
        "svg",
        &[("viewBox", &size), ("role", "img"), ("aria-label", &words)],
        |html| {
            for mark in scale.marks(clock).0 {
                grid_line(
                    html,
                    f64::from(layout.gutter) + scale.place(mark),
                    layout.height(),
                );
            }
            if layout.has_words() {
                names(html, layout);
            }
            // Narrow ones last, so that a wide neighbour does not cover them.
            let (narrow, wide): (Vec<&Bar>, Vec<&Bar>) =
                lane.bars.iter().partition(|bar| width(bar, scale) <= 1.0);
            for shown in wide.into_iter().chain(narrow) {
                bar(html, shown, layout, scale, clock);
            }
            for tick in Tick::ALL {
                ticks(html, tick, &lane.runs(tick), layout);
            }
        },
    );
}

fn names(html: &mut Html, layout: &Layout) {
    let rows = Row::ALL.into_iter().map(row_words).chain(["messages"]);
    for (place, words) in rows.enumerate() {
        let (top, height) = layout.place(place);
        let (x, y) = (layout.gutter - 6, top + height - 3);
        let attributes = [
            ("class", "row"),
            ("x", &*x.to_string()),
            ("y", &*y.to_string()),
            ("text-anchor", "end"),
        ];
        html.line("text", &attributes, words);
    }
}

fn width(bar: &Bar, scale: &Scale) -> f64 {
    (scale.place(bar.to) - scale.place(bar.from)).max(1.0)
}

fn bar(html: &mut Html, bar: &Bar, layout: &Layout, scale: &Scale, clock: &Clock) {
    let row = Row::ALL.iter().position(|row| *row == bar.row).unwrap_or(0);
    let (top, height) = layout.place(row);
    // A loss is told by its height too: half of the row.
    let (top, height) = if bar.row == Row::Loss {
        (top + height / 4, height / 2)
    } else {
        (top, height)
    };
    let width = width(bar, scale);
    let left = f64::from(layout.gutter) + scale.place(bar.from).min(f64::from(COLUMNS) - 1.0);
    let numbers = [
        format!("{left:.1}"),
        top.to_string(),
        format!("{width:.1}"),
        height.to_string(),
    ];
    let [x, y, w, h] = &numbers;
    let attributes = [
        ("class", bar_class(bar, width)),
        ("x", x),
        ("y", y),
        ("width", w),
        ("height", h),
    ];
    html.element("rect", &attributes, |html| {
        html.element("title", &[], |html| html.words(&title(bar, clock)))
    });
    match bar.thing {
        Some(Thing::State(_)) if bar.times == 1 && layout.has_words() && width > WORD_WIDTH => {
            word(html, bar, left, top + height - 3)
        }
        _ => {}
    }
}

fn word(html: &mut Html, bar: &Bar, left: f64, y: u32) {
    let words = bar.thing.map_or("", Thing::words);
    let attributes = [
        ("class", "in"),
        ("x", &*format!("{:.1}", left + 5.0)),
        ("y", &*y.to_string()),
    ];
    html.line("text", &attributes, words);
}

fn title(bar: &Bar, clock: &Clock) -> String {
    match bar.times {
        1 => bar.title.clone(),
        times => {
            let what = bar.thing.map_or("changes", Thing::words);
            format!(
                "{times} times {what}, from {} to {}",
                clock.exact(bar.from),
                clock.exact(bar.to)
            )
        }
    }
}

/// The height of a tick tells its kind: CC and CV the lower half, AIS and LKR all, refused ones the upper half.
fn ticks(html: &mut Html, tick: Tick, runs: &[(u32, u32)], layout: &Layout) {
    let (top, height) = layout.place(Row::ALL.len());
    let (top, height) = match tick {
        Tick::Bfd => (top + height / 2, height / 2),
        Tick::Fault => (top, height),
        Tick::Refused => (top, height / 2),
    };
    let path: String = runs
        .iter()
        .map(|(column, count)| {
            format!(
                "M{} {top}h{count}v{height}h-{count}z",
                layout.gutter + column
            )
        })
        .collect();
    if !path.is_empty() {
        html.empty("path", &[("class", tick_class(tick)), ("d", &path)]);
    }
}
