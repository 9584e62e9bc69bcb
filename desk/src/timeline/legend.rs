//! What each pattern and tick means.

use super::draw;
use super::lanes::Tick;
use super::stretches::Thing;
use crate::html::Html;

/// Each pattern is a shape of its own, so that no kind is told by colour alone.
pub fn patterns(html: &mut Html) {
    let drawn = [
        ("p-init", "M0 1.5h8M0 5.5h8", "--init"),
        ("p-admin", "M2 2h1.6v1.6h-1.6zM6 6h1.6v1.6h-1.6z", "--down"),
        ("p-held", "M-2 2L2 -2M-2 10L10 -2M6 10L10 6", "--held"),
        ("p-blocked", "M0 0L8 8M8 0L0 8", "--blocked"),
        ("p-remote", "M1 1h3v3h-3zM5 5h3v3h-3z", "--remote"),
        ("p-several", "M1 0v8M5 0v8", "--fg"),
    ];
    html.block(
        "svg",
        &[("class", "defs"), ("aria-hidden", "true")],
        |html| {
            html.element("defs", &[], |html| {
                for (id, path, colour) in drawn {
                    let size = [
                        ("id", id),
                        ("width", "8"),
                        ("height", "8"),
                        ("patternUnits", "userSpaceOnUse"),
                    ];
                    let style = format!("stroke:var({colour});fill:var({colour});stroke-width:1.4");
                    html.element("pattern", &size, |html| {
                        html.empty("path", &[("d", path), ("style", &style)])
                    });
                }
            });
        },
    );
}

/// Each kind of bar, with its shape in words.
const BARS: [(Option<Thing>, &str); 10] = [
    (Some(Thing::State(3)), "UP: filled"),
    (Some(Thing::State(2)), "INIT: level stripes"),
    (Some(Thing::State(1)), "DOWN: hollow"),
    (Some(Thing::State(0)), "ADMIN DOWN (locked): dots"),
    (Some(Thing::Loss), "loss: a thin bar"),
    (Some(Thing::Alarm), "alarm: filled, below the loss"),
    (
        Some(Thing::HeldBack),
        "alarm held back: slanted stripes, below the loss",
    ),
    (
        Some(Thing::Blocked),
        "traffic blocked by a crossing: crosses",
    ),
    (Some(Thing::RemoteDefect), "remote defect: squares"),
    (None, "many short ones side by side: upright lines"),
];
/// Each kind of tick, where it stands and how high it is.
const TICKS: [(Tick, (&str, &str), &str); 3] = [
    (Tick::Bfd, ("8", "6"), "CC or CV: a low tick"),
    (
        Tick::Fault,
        ("1", "13"),
        "AIS or LKR: a tick of full height",
    ),
    (
        Tick::Refused,
        ("1", "6"),
        "a message that was refused: a tick in the upper half",
    ),
];
const ROWS: &str = "Rows of a lane from above: state, loss, alarm or alarm held back, blocked traffic, remote defect, messages. \
    A column has one tick at most, the most telling of its messages.";

const SPACING: &str = "Below a circuit's name: the spacing of its CCs, a bar for the pairs that came so much early (to the left) or late \
    (to the right) of a period; in the middle those on time, from there to each side 1 µs, 10 µs, 100 µs, 1 ms, 10 ms, 100 ms, 1 s and more.";

/// With what the histograms mean, where there are any.
pub fn write(html: &mut Html, spacings: bool) {
    html.block("ul", &[("class", "legend")], |html| {
        for (thing, words) in BARS {
            let thin = thing == Some(Thing::Loss);
            let down = if thin { ("5", "6") } else { ("1", "13") };
            sample(html, draw::class(thing), ("1", "42"), down, words);
        }
        for (tick, down, words) in TICKS {
            sample(html, draw::tick_class(tick), ("21", "2"), down, words);
        }
    });
    html.line("p", &[], ROWS);
    if spacings {
        html.line("p", &[], SPACING);
    }
}

fn sample(html: &mut Html, class: &str, across: (&str, &str), down: (&str, &str), words: &str) {
    html.block("li", &[], |html| {
        html.element(
            "svg",
            &[("viewBox", "0 0 44 15"), ("aria-hidden", "true")],
            |html| {
                let attributes = [
                    ("class", class),
                    ("x", across.0),
                    ("width", across.1),
                    ("y", down.0),
                    ("height", down.1),
                ];
                html.empty("rect", &attributes);
            },
        );
        html.words(words);
    });
}
