//! The page around the lanes: what it is of, a legend, and the same in words.

use super::clock::{self, Clock};
use super::draw::{self, Layout};
use super::lanes::Lane;
use super::scale::Scale;
use super::spacings::{self, Spacings};
use super::stretches::Stretch;
use super::{legend, tables};
use crate::html::{self, Html};

const STYLE: &str = include_str!("style.css");

/// All that a page shows.
pub struct Picture {
    /// The capture's name.
    pub name: String,
    pub clock: Clock,
    pub scale: Scale,
    pub lanes: Vec<Lane>,
    /// In the order in which they began.
    pub stretches: Vec<Stretch>,
    /// Stretches that the tables leave out.
    pub left_out: u64,
    pub spacings: Spacings,
    pub records: u64,
    /// Messages on labels that have no lane.
    pub elsewhere: u64,
    /// Events for whose cause `why` was not asked.
    pub without_cause: u64,
    /// What is wrong with the capture.
    pub wrong: Option<String>,
}

pub fn write(picture: &Picture) -> String {
    let title = format!("Timeline of {}", picture.name);
    html::page(&title, STYLE, |html| {
        legend::patterns(html);
        html.line("h1", &[], &title);
        facts(html, picture);
        html.line("h2", &[], "Legend");
        legend::write(html, picture.spacings.is_some());
        html.line("h2", &[], "Circuits");
        lanes(html, picture);
        html.line("h2", &[], "Losses, alarms, blocked traffic");
        tables::defects(html, picture);
        html.line("h2", &[], "Spacing of CCs");
        spacings::table(html, picture);
        html.line("h2", &[], "States");
        tables::states(html, picture);
    })
}

fn facts(html: &mut Html, picture: &Picture) {
    let Picture { clock, scale, .. } = picture;
    let facts = format!(
        "Records: {}, from {} to {} ({} s). Circuits: {}. {}",
        picture.records,
        clock.exact(scale.first),
        clock.exact(scale.last),
        clock::seconds(scale.last - scale.first),
        picture.lanes.len(),
        clock.words()
    );
    html.line("p", &[], &facts);
    if let Some(wrong) = &picture.wrong {
        html.line("p", &[("class", "wrong")], wrong);
    }
    if picture.elsewhere > 0 {
        let words = format!(
            "Messages on labels that no session had: {}.",
            picture.elsewhere
        );
        html.line("p", &[], &words);
    }
    let programs = match picture.spacings {
        Some(_) => "watch, why and spacing",
        None => "watch and why",
    };
    let words = format!("All that is shown was answered by the programs {programs}. Hover over a bar to read its cause and its end; the tables have them too.");
    html.line("p", &[], &words);
}

fn lanes(html: &mut Html, picture: &Picture) {
    if picture.lanes.is_empty() {
        html.line("p", &[], "No session was ever open.");
        return;
    }
    let layout = Layout::of(picture.lanes.len());
    axis(html, picture, &layout, "lane head");
    for lane in &picture.lanes {
        html.block("div", &[("class", "lane")], |html| {
            html.block("div", &[], |html| {
                html.element("h3", &[], |html| {
                    html.words(&lane.name);
                    html.element("span", &[], |html| html.words(&under_name(lane)));
                });
                spacings::histogram(html, picture, lane.label);
            });
            draw::lane(html, lane, &layout, &picture.scale, &picture.clock);
        });
    }
    axis(html, picture, &layout, "lane");
}

fn axis(html: &mut Html, picture: &Picture, layout: &Layout, class: &str) {
    html.block("div", &[("class", class)], |html| {
        html.element("span", &[], |_| {});
        draw::axis(html, layout, &picture.scale, &picture.clock);
    });
}

/// What is not in the name yet.
fn under_name(lane: &Lane) -> String {
    let label = format!("label {}", lane.label);
    let mut words = if lane.name == label {
        String::new()
    } else {
        label + ", "
    };
    let many = if lane.messages == 1 { "" } else { "s" };
    words.push_str(&format!("{} message{many}", lane.messages));
    if lane.refused > 0 {
        words.push_str(&format!(", {} refused", lane.refused));
    }
    words
}
