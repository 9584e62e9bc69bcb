//! The spacing of CCs, as `desk events --spacing` and `desk timeline` show it: held to `spacing` on
//! the whole capture, and to the pairs that the second program finds.

mod common;
mod pages;

use common::{desk, desk_with, fake, file, folder_of_two, package, printed, programs};
use desk::spacing::{bin_words, json, text, Answer, Numbers, COUNT, MIDDLE};
use pages::{check, rows, unescape};
use peer::assemble::assemble;
use peer::capture::HEADER;
use peer::make;
use peer::spacing::check::labels;
use peer::spacing::pairs::{self, Pair};
use peer::why::history::History;
use std::io::Write;
use std::path::Path;
use std::process::{Command, Stdio};
use std::sync::atomic::{AtomicUsize, Ordering};

/// What `spacing` itself says of a label of a whole capture.
fn said(label: u32, capture: &[u8]) -> String {
    let mut child = Command::new(programs().join("spacing"))
        .arg(label.to_string())
        .stdin(Stdio::piped())
        .stdout(Stdio::piped())
        .spawn()
        .expect("spacing runs");
    // Behind a bad header it may want no more.
    let _ = child.stdin.take().expect("piped").write_all(capture);
    let output = child.wait_with_output().expect("spacing ends");
    String::from_utf8(output.stdout).expect("UTF-8")
}

/// A line of `spacing` as we take it.
fn answer(line: &str) -> Answer {
    let words: Vec<&str> = line.split_whitespace().collect();
    match words[..] {
        ["refused", "21"] => Answer::TooLarge,
        [pairs, least, greatest, sum, sizes] => Answer::Numbers(Numbers {
            pairs: pairs.parse().expect("a number"),
            least: least.parse().ok(),
            greatest: greatest.parse().ok(),
            sum: sum.parse().expect("a number"),
            sizes: sizes.parse().expect("a number"),
        }),
        _ => panic!("{line}"),
    }
}

/// The labels of a capture that were ever open.
fn open_labels(capture: &[u8]) -> Vec<u32> {
    let mut labels = labels(&History::read(capture, u64::MAX).expect("read"));
    // The last one was never open.
    labels.pop();
    labels
}

/// The captures with worked spacings, and made ones.
fn captures() -> Vec<(String, Vec<u8>)> {
    let folder = package().join("../crates/spacings/data");
    let paths = std::fs::read_dir(folder).expect("a folder");
    let paths = paths.map(|entry| entry.expect("an entry").path());
    let stored = paths.filter(|path| path.extension().is_some_and(|end| end == "capture"));
    let stored = stored.map(|path| (path.display().to_string(), std::fs::read(path).expect("it")));
    let made = (1..=25).map(|seed| (format!("seed {seed}"), make::spaced(seed)));
    let usual = (1..=5).map(|seed| (format!("usual seed {seed}"), make::capture(seed)));
    stored.chain(made).chain(usual).collect()
}

#[test]
fn events_show_what_spacing_says_of_the_whole_capture() {
    let mut circuits = 0;
    for (name, capture) in captures() {
        let path = file("spacing-events.capture", &capture);
        let (mut lines, mut objects) = (String::new(), String::new());
        for label in open_labels(&capture) {
            let answer = answer(&said(label, &capture));
            lines += &text(label, &answer);
            objects += &json(label, &answer);
            circuits += 1;
        }
        let words = ["events", &path, "--spacing", "--no-causes"];
        for (more, expected) in [(&[][..], lines), (&["--json"], objects)] {
            let output = desk(&[&words, more].concat());
            let printed = String::from_utf8(output.stdout).expect("UTF-8");
            let shown: String = printed
                .split_inclusive('\n')
                .filter(|line| line.contains("spacing"))
                .collect();
            assert_eq!(shown, expected, "{name}");
        }
    }
    assert!(circuits > 80, "{circuits}");
}

#[test]
fn the_worked_captures_as_they_are_shown() {
    let path = package().join("../crates/spacings/data/several_labels.capture");
    let path = path.to_str().expect("UTF-8");
    let printed = printed(&["events", path, "--spacing", "--no-causes"]);
    let printed = String::from_utf8(printed).expect("UTF-8");
    let expected = "\
label 100, spacing: 1 pair, least 0, greatest 0, mean 0, sum of sizes 0
label 101, spacing: 2 pairs, least -3, greatest 1000000, mean 999997/2, about 499998.500, sum of sizes 1000003
label 102, spacing: no pair of CCs, so no least, no greatest and no mean; sum of sizes 0
";
    assert!(printed.ends_with(expected), "{printed}");
    let one = desk(&["events", path, "--spacing", "--no-causes", "--label", "100"]);
    let one = String::from_utf8(one.stdout).expect("UTF-8");
    let spacings = one.lines().filter(|line| line.contains("spacing"));
    assert_eq!(spacings.count(), 1, "{one}");
}

/// The page of a capture, which may be cut.
fn page(name: &str, capture: &[u8]) -> String {
    // Tests run side by side, and each page has a file of its own.
    static PAGES: AtomicUsize = AtomicUsize::new(0);
    let number = PAGES.fetch_add(1, Ordering::Relaxed);
    let path = file(&format!("spacing-{number}.capture"), capture);
    let output = desk(&["timeline", &path]);
    let page = String::from_utf8(output.stdout).expect("UTF-8");
    assert_eq!(check(&page), Ok(()), "{name}");
    page
}

/// The words of each bar in the histogram of a lane.
fn bars(page: &str, label: u32) -> Vec<String> {
    let lane = page
        .split_once(&format!("<h3>label {label}<"))
        .expect("a lane")
        .1;
    let lane = lane.split("<h3>").next().expect("its end");
    let bars = lane.split("<g><title>").skip(1);
    bars.map(|bar| unescape(bar.split('<').next().expect("words")))
        .collect()
}

/// The bin of an error, looked for from the least limit on.
fn bin(error: i128) -> usize {
    let limits = [1, 10, 100, 1_000, 10_000, 100_000, 1_000_000];
    let steps = limits.iter().filter(|limit| error.abs() >= **limit).count();
    match error < 0 {
        true => MIDDLE - steps,
        false => MIDDLE + steps,
    }
}

/// What the bars have to say of so many pairs in each bin.
fn words(bins: &[u64; COUNT]) -> Vec<String> {
    let filled = bins.iter().enumerate().filter(|(_, pairs)| **pairs > 0);
    let many = |pairs: u64| if pairs == 1 { "" } else { "s" };
    filled
        .map(|(place, pairs)| format!("{}: {pairs} pair{}", bin_words(place), many(*pairs)))
        .collect()
}

#[test]
fn each_pair_is_in_its_bin() {
    let mut lanes = 0;
    for (name, capture) in captures() {
        if !capture.starts_with(&HEADER) {
            continue;
        }
        let page = page(&name, &capture);
        let history = History::read(&capture[..], u64::MAX).expect("read");
        let rows = rows(&page);
        let labels = open_labels(&capture);
        for label in &labels {
            let answer = answer(&said(*label, &capture));
            let has = |cell: &str| {
                let circuit = format!("label {label}");
                let mut of_it = rows
                    .iter()
                    .filter(|row| row.len() == 7 && row[0] == circuit);
                assert!(of_it.any(|row| row[1].starts_with(cell)), "{name}: {cell}");
            };
            let Answer::Numbers(numbers) = answer else {
                has("refused 21");
                continue;
            };
            has(&numbers.pairs.to_string());
            let pairs = pairs::of(&history.events, *label);
            // Crossed CCs take parts too; with fewer pairs than parts each has its own.
            if labels.len() > 3 || pairs.len() > 60 {
                continue;
            }
            let mut bins = [0; COUNT];
            for error in pairs.iter().map(Pair::error) {
                bins[bin(error)] += 1;
            }
            assert_eq!(bars(&page, *label), words(&bins), "{name}, label {label}");
            lanes += usize::from(!pairs.is_empty());
        }
    }
    assert!(lanes > 25, "{lanes}");
}

/// More pairs than parts: each part counts at its mean, and the page says so.
#[test]
fn many_pairs_are_shown_by_their_means() {
    let mut lines = "0 100 open my=17 period=1,000\n".to_string();
    for number in 0..1_001 {
        // On time, one early by 5 and one late by 5 behind it, in turn.
        let time = 1_000 * number - if number % 4 == 1 { 5 } else { 0 };
        lines += &format!("{time} 100 receive cc up my=5 your=17\n");
    }
    let page = page("many", &assemble(&lines).expect("a capture"));
    let bars = bars(&page, 100);
    let counted: u64 = bars
        .iter()
        .map(|bar| {
            assert!(bar.ends_with(", by the means of several"), "{bar}");
            let (_, rest) = bar.rsplit_once(": ").expect("a number");
            let (pairs, _) = rest.split_once(' ').expect("a number");
            pairs.parse::<u64>().expect("a number")
        })
        .sum();
    assert_eq!(counted, 1_000);
    assert!(page.contains("shown are the means of up to 11 pairs at a time"));
    assert!(page.contains("1000 pairs, least -5, greatest 5, mean 0, sum of sizes 2500"));
}

#[test]
fn what_does_not_fit_is_said() {
    let path = package().join("../crates/spacings/data/above_and_on.capture");
    let capture = std::fs::read(path).expect("a capture");
    let page = page("above_and_on", &capture);
    assert!(page.contains("refused 21: a number does not fit"));
    assert!(page.contains("refused 21, a number does not fit; shown is what came before"));
    // The two pairs before it, a period early each.
    assert_eq!(bars(&page, 100), ["early by 1 s or more: 2 pairs"]);
}

#[test]
fn without_the_program_it_is_said() {
    let folder = folder_of_two("programs-without-spacing");
    let path = package().join("../crates/spacings/data/early_and_late.capture");
    let path = path.to_str().expect("UTF-8");
    let output = desk_with(&folder, &["events", path, "--spacing"]);
    let said = String::from_utf8_lossy(&output.stderr).into_owned();
    assert_eq!(output.status.code(), Some(1));
    assert!(output.stdout.is_empty());
    let start = "desk events: no spacing can be shown: ";
    assert!(
        said.starts_with(start) && said.contains("spacing is not there"),
        "{said}"
    );
    let output = desk_with(&folder, &["timeline", path]);
    let said = String::from_utf8_lossy(&output.stderr).into_owned();
    let page = String::from_utf8(output.stdout).expect("UTF-8");
    assert!(output.status.success());
    assert!(
        said.starts_with("desk timeline: no spacing is shown: "),
        "{said}"
    );
    assert!(page.contains("No spacing is shown, because the program spacing was not there"));
    assert_eq!(check(&page), Ok(()));
    // Without `--spacing` nothing is missed.
    let output = desk_with(&folder, &["events", path, "--no-causes"]);
    assert!(output.status.success() && output.stderr.is_empty());
}

#[test]
fn a_program_that_does_not_answer_is_told_of() {
    let path = package().join("../crates/spacings/data/early_and_late.capture");
    let path = path.to_str().expect("UTF-8");
    for (name, line, expected) in [
        (
            "odd",
            "cat >/dev/null; echo 1 2 3",
            "label 100: spacing answers `1 2 3`",
        ),
        ("silent", "cat >/dev/null", "label 100: spacing answers ``"),
        (
            "failing",
            "echo no memory >&2; exit 3",
            "spacing failed: exit status: 3 no memory",
        ),
    ] {
        let folder = fake(&format!("programs-{name}"), "spacing", line);
        for words in [&["events", path, "--spacing"][..], &["timeline", path]] {
            let output = run_when_free(&folder, words);
            let said = String::from_utf8_lossy(&output.stderr).into_owned();
            assert_eq!(output.status.code(), Some(1), "{name}");
            assert!(said.contains(expected), "{name}: {said}");
        }
    }
}

/// A program that was just written cannot be run while another test starts one: it has the file open
/// for a moment.
fn run_when_free(folder: &Path, words: &[&str]) -> std::process::Output {
    loop {
        let output = desk_with(folder, words);
        if !String::from_utf8_lossy(&output.stderr).contains("Text file busy") {
            return output;
        }
    }
}

#[test]
fn spacing_is_of_the_whole_capture() {
    let path = package().join("../crates/spacings/data/early_and_late.capture");
    let path = path.to_str().expect("UTF-8");
    for words in [["--from", "1"], ["--to", "9"]] {
        let output = desk(&[&["events", path, "--spacing"], &words[..]].concat());
        let said = String::from_utf8_lossy(&output.stderr).into_owned();
        assert_eq!(output.status.code(), Some(2), "{said}");
        assert!(said.contains("of the whole capture"), "{said}");
    }
}
