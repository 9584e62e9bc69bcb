//! `desk timeline`: pages of stored, made and long captures.

mod common;
mod pages;

use common::{desk, file, package, printed, refused, stored_captures};
use desk::events::{self, Event, Options, What};
use pages::{check, rows};
use peer::capture::HEADER;
use peer::{load, make};
use std::collections::BTreeSet;
use std::sync::Once;

/// The cells of a row of the table of spacings, which is of no event.
const SPACING_CELLS: usize = 7;

fn morning() -> String {
    let path = package().join("../crates/questions/data/morning.capture");
    path.to_str().expect("UTF-8").to_string()
}

fn page(words: &[&str]) -> String {
    let mut all = vec!["timeline"];
    all.extend(words);
    String::from_utf8(printed(&all)).expect("UTF-8")
}

#[test]
fn the_checker_finds_what_is_wrong() {
    let good = "<!DOCTYPE html>\n<html lang=\"en\"><meta charset=\"utf-8\"><p id=\"a\">a &lt; b</p><path d=\"M0\"/></html>\n";
    assert_eq!(check(good), Ok(()));
    let wrong = [
        ("</p>", ""),
        ("</p>", "</b>"),
        ("&lt;", "&"),
        ("&lt;", ">"),
        ("id=\"a\"", "id=a"),
        ("id=\"a\"", "onclick=\"a\""),
        ("d=\"M0\"", "id=\"a\""),
        ("a &lt; b", "<script></script>"),
        ("a &lt; b", "http://a"),
        ("M0\"/>", "M0\">"),
        ("<!DOCTYPE html>\n", ""),
    ];
    for (part, instead) in wrong {
        assert!(
            check(&good.replace(part, instead)).is_err(),
            "{part} as {instead}"
        );
    }
}

/// The words of a row and the column in which the reading of an event stands.
fn place_of(what: What) -> Option<(&'static str, usize)> {
    let place = |words, on| Some((words, if on { 2 } else { 3 }));
    match what {
        What::Opened | What::Closed => None,
        What::State(0) => place("ADMIN DOWN", true),
        What::State(1) => place("DOWN", true),
        What::State(2) => place("INIT", true),
        What::State(_) => place("UP", true),
        What::Loss(on) => place("loss", on),
        What::Alarm(on) => place("alarm", on),
        What::HeldBack(on) => place("alarm held back", on),
        What::Crossing(on) => place("traffic blocked (crossing)", on),
        What::RemoteDefect(on) => place("remote defect", on),
    }
}

fn time_of(event: &Event) -> String {
    let (seconds, micros) = (event.reading / 1_000_000, event.reading % 1_000_000);
    let by = event.record.map_or("by time alone".to_string(), |record| {
        format!("record {record}")
    });
    format!("{seconds}.{micros:06} s, {by}")
}

/// The events are found in this process, so that the programs have to be known here too.
fn programs_for_us() {
    static ONCE: Once = Once::new();
    ONCE.call_once(|| std::env::set_var("KORVEZUL_BIN", common::programs()));
}

/// The events of a capture.
fn events_of(capture: &[u8]) -> Vec<Event> {
    programs_for_us();
    let mut all = Vec::new();
    let options = Options {
        causes: false,
        ..Options::default()
    };
    let mut each = |event| {
        all.push(event);
        Ok(())
    };
    events::find(capture, &options, &mut each).expect("events");
    all
}

/// Each event has its row, and the page has no row that no event began. Gives how many there are.
fn has_each_event(name: &str, capture: &[u8], page: &str) -> usize {
    let rows: Vec<_> = rows(page)
        .into_iter()
        .filter(|row| row[0].starts_with("label ") && row.len() != SPACING_CELLS)
        .collect();
    let (mut begun, mut open) = (0, BTreeSet::new());
    let events = events_of(capture);
    for event in &events {
        let circuit = format!("label {}", event.label);
        let has = |column: usize, words: &str| {
            let mut of_it = rows
                .iter()
                .filter(|row| row[0] == circuit && row[column] == time_of(event));
            let found = of_it.any(|row| words.is_empty() || row[1] == words);
            assert!(found, "{name}: {event:?}");
        };
        match (event.what, place_of(event.what)) {
            (What::Opened, _) => assert!(open.insert(circuit), "{name}: {event:?}"),
            (What::Closed, _) => {
                has(3, "");
                assert!(open.remove(&circuit), "{name}: {event:?}");
            }
            (_, Some((words, column))) => {
                has(column, words);
                begun += usize::from(column == 2);
            }
            (_, None) => {}
        }
    }
    assert_eq!(rows.len(), begun, "{name}");
    let standing = rows.iter().filter(|row| row[3] == "stands at the end");
    let standing: BTreeSet<String> = standing.map(|row| row[0].clone()).collect();
    assert_eq!(
        standing, open,
        "{name}: what is open has a state, what is closed has none"
    );
    events.len()
}

#[test]
fn stored_and_made_captures_have_each_event() {
    let mut captures: Vec<(String, Vec<u8>)> = Vec::new();
    for (path, capture) in stored_captures() {
        captures.push((path.display().to_string(), capture));
    }
    for seed in 1..=25 {
        captures.push((format!("seed {seed}"), make::capture(seed)));
    }
    let mut told = 0;
    for (place, (name, capture)) in captures.iter().enumerate() {
        let path = file(&format!("timeline-{place}.capture"), capture);
        let output = desk(&["timeline", &path]);
        let page = String::from_utf8(output.stdout).expect("UTF-8");
        let said = String::from_utf8_lossy(&output.stderr).into_owned();
        if !capture.starts_with(&HEADER) {
            assert!(
                page.is_empty() && said.contains("bad header at offset 0"),
                "{name}: {said}"
            );
            assert_eq!(output.status.code(), Some(1), "{name}");
            continue;
        }
        assert_eq!(output.status.success(), said.is_empty(), "{name}: {said}");
        assert_eq!(
            said.contains("cut behind record"),
            page.contains("cut behind record"),
            "{name}: {said}"
        );
        assert_eq!(check(&page), Ok(()), "{name}");
        told += has_each_event(name, capture, &page);
    }
    assert!(told > 3_000, "{told}");
}

#[test]
fn the_morning() {
    let page = page(&[&morning(), "--epoch", "0"]);
    let rows = rows(&page);
    let row = |cells: [&str; 8]| {
        assert!(
            rows.contains(&cells.map(str::to_string).to_vec()),
            "{cells:?}\n{rows:#?}"
        )
    };
    row([
        "label 100",
        "alarm held back",
        "05:40:00.000001, by time alone",
        "09:10:00.000000, record 529",
        "12599.999999 s",
        "record 11 at 05:39:50.000000, AIS, refresh 20 s, interface 1/7",
        "10.000001 s",
        "at 20460000000 (05:41:00.000000), or when the loss ends",
    ]);
    row([
        "label 200",
        "traffic blocked (crossing)",
        "07:00:00.000000, record 111",
        "07:10:03.500000, record 386",
        "603.500000 s",
        "record 111 at 07:00:00.000000, CV, Your 44, from LSP 1/30/4/2",
        "0.000000 s",
        "at 25203500000 (07:00:03.500000), unless another crossed message comes",
    ]);
    // On hover: the same in one text, on the bar that is striped for it.
    let hover = "<title>label 100: alarm held back, from 05:40:00.000001 to 09:10:00.000000\nwhich: record 11 at 05:39:50.000000, AIS, refresh 20 s, interface 1/7\nhow old then: 10.000001 s\n";
    let bar = page
        .split("<rect class=\"held\"")
        .find(|part| part.contains(hover));
    assert!(bar.is_some());
    assert!(page.contains(">07:00:00</text>"), "a mark of the axis");
}

/// Where bars stand, by hand: 12,720 s are 1,000 columns, behind a gutter of 96.
#[test]
fn bars_of_the_morning_are_to_scale() {
    let page = page(&[&morning()]);
    let bar = |class: &str| {
        let (_, rest) = page
            .rsplit_once(&format!("<rect class=\"{class}\" x=\""))
            .expect(class);
        let (x, rest) = rest.split_once('"').expect("x");
        let (_, rest) = rest.split_once("width=\"").expect("width");
        let (width, _) = rest.split_once('"').expect("width");
        (x.to_string(), width.to_string())
    };
    let is = |x: &str, width: &str| (x.to_string(), width.to_string());
    // From 120.000001 s on, to the end.
    assert_eq!(bar("held"), is("105.4", "990.6"));
    assert_eq!(bar("loss"), is("105.4", "990.6"));
    // From 4,920 s on, for 603.5 s.
    assert_eq!(bar("blocked"), is("482.8", "47.4"));
    // At the last reading: one column, at the border.
    assert_eq!(bar("alarm"), is("1095.0", "1.0"));
}

#[test]
fn names_of_circuits_are_escaped_and_in_the_order_of_the_file() {
    let lines = "zoë&\"'<b>  label=200 my=18 own=1/10/1/1 expected=1/20/1/1\n</h3><i>  label=100 my=17 own=1/10/1/1 expected=1/20/1/1\n";
    let sessions = file("timeline.sessions", lines.as_bytes());
    let page = page(&[&morning(), "--sessions", &sessions]);
    assert_eq!(check(&page), Ok(()));
    assert!(!page.contains("<b>") && !page.contains("<i>"));
    let place = |name: &str| page.find(&format!("<h3>{name}<span>label")).expect(name);
    assert!(place("zoë&amp;&quot;&#39;&lt;b&gt;") < place("&lt;/h3&gt;&lt;i&gt;"));
}

/// The columns of all ticks of a lane.
fn tick_columns(lane: &str) -> Vec<u32> {
    let mut columns = Vec::new();
    for class in ["bfd", "fault", "refused"] {
        let start = format!("<path class=\"{class}\" d=\"");
        let path = lane
            .split_once(&start)
            .and_then(|(_, rest)| rest.split_once('"'));
        for run in path.map_or("", |(path, _)| path).split('M').skip(1) {
            let (x, rest) = run.split_once(' ').expect("a place");
            let (_, rest) = rest.split_once('h').expect("a run");
            let (count, _) = rest.split_once('v').expect("a height");
            let (x, count): (u32, u32) = (x.parse().expect("x"), count.parse().expect("count"));
            columns.extend(x..x + count);
        }
    }
    columns
}

#[test]
fn sixty_four_lanes_with_one_tick_a_column() {
    let mut capture = Vec::new();
    load::load(load::Load::Mixed, 40_000, &mut capture).expect("made");
    let path = file("timeline-mixed.capture", &capture);
    let page = page(&[&path]);
    assert_eq!(check(&page), Ok(()));
    assert!(page.len() < 1_000_000, "{}", page.len());
    let lanes: Vec<&str> = page.split("<h3>").skip(1).collect();
    assert_eq!(lanes.len(), 64);
    let names: BTreeSet<&str> = lanes
        .iter()
        .filter_map(|lane| lane.split('<').next())
        .collect();
    assert_eq!(names.len(), 64);
    for lane in lanes {
        let columns = tick_columns(lane);
        let distinct: BTreeSet<u32> = columns.iter().copied().collect();
        assert_eq!(distinct.len(), columns.len(), "a column has two ticks");
        assert!(
            distinct.len() > 30 && distinct.iter().all(|column| *column < 1_000),
            "{}",
            distinct.len()
        );
    }
}

#[test]
fn no_session_and_no_record() {
    let path = file("timeline-empty.capture", &HEADER);
    let page = page(&[&path]);
    assert_eq!(check(&page), Ok(()));
    assert!(page.contains("No session was ever open."));
}

/// A capture that is cut anywhere has a page of what stands before, and the cut is said with its offset.
#[test]
fn cut_captures() {
    let whole = std::fs::read(morning()).expect("the morning");
    for length in (HEADER.len()..whole.len()).step_by(1_237) {
        let path = file("timeline-cut.capture", &whole[..length]);
        let output = desk(&["timeline", &path]);
        let said = String::from_utf8_lossy(&output.stderr).into_owned();
        let page = String::from_utf8(output.stdout).expect("UTF-8");
        assert_eq!(check(&page), Ok(()), "{length}");
        assert_eq!(output.status.success(), said.is_empty(), "{length}: {said}");
        assert!(
            said.is_empty() || said.contains("is no whole record"),
            "{said}"
        );
        assert_eq!(
            page.contains("is no whole record"),
            !said.is_empty(),
            "{length}"
        );
    }
}

#[test]
fn wrong_words_and_files() {
    assert!(refused(&["timeline"]).contains("wants CAPTURE"));
    assert!(refused(&["timeline", "a", "b"]).contains("wants CAPTURE"));
    assert!(refused(&["timeline", "a", "--label", "1"]).contains("no option `--label`"));
    assert!(refused(&["timeline", &morning(), "--epoch", "noon"]).contains("`noon`"));
    assert!(refused(&["timeline", "/nowhere.capture"]).contains("/nowhere.capture"));
    let sessions = file(
        "timeline-wrong.sessions",
        b"a label=100 my=17 own=1/2/3 expected=1/2/4\nb label=x\n",
    );
    assert!(refused(&["timeline", &morning(), "--sessions", &sessions]).contains("line 2"));
    assert!(page(&["--help"]).starts_with("usage: desk timeline"));
}
