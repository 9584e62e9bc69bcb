//! The commands on lists of calls, and of messages.

use super::{input, print, print_octets, usage, Done};
use peer::{dhc, list, log};
use std::io;
use std::path::Path;
use std::process::ExitCode;

pub fn run(command: &str, words: &[&str]) -> Done {
    match (command, words) {
        ("lists", [folder]) => lists(Path::new(folder)),
        ("asks", [folder]) => asks(Path::new(folder)),
        ("spell", [path]) => print_octets(list::spell(&list_at(Path::new(path))?).as_bytes()),
        ("answer", []) => print(|output| list::answer(input(), output)),
        ("cells", [_, ..]) => cells(words),
        ("switching", [_, ..]) => switching(words),
        ("dhc", []) => print(|output| dhc::answer(input(), output)),
        _ => usage(),
    }
}

/// Plays every list of a folder and says what was answered otherwise.
fn lists(folder: &Path) -> Done {
    let (mut lists, mut calls, mut wrong) = (0, 0, 0);
    for path in list::of_folder(folder)? {
        let played = list::play(&list_at(&path)?);
        for difference in &played.wrong {
            println!("{}, {difference}", path.display());
        }
        lists += 1;
        calls += played.calls;
        wrong += played.wrong.len();
    }
    println!("{lists} lists, {calls} calls, {wrong} of them answered otherwise");
    Ok(match (calls, wrong) {
        (1.., 0) => ExitCode::SUCCESS,
        _ => ExitCode::FAILURE,
    })
}

/// Plays every log of a folder and says what was answered otherwise.
fn asks(folder: &Path) -> Done {
    let played = log::play::folder(folder).map_err(io::Error::other)?;
    for difference in &played.wrong {
        println!("{difference}");
    }
    for (what, times) in &played.counts {
        println!("{what}: {times}");
    }
    let wrong = played.wrong.len();
    println!("{wrong} of them otherwise");
    Ok(match (played.counts.is_empty(), wrong) {
        (false, 0) => ExitCode::SUCCESS,
        _ => ExitCode::FAILURE,
    })
}

fn cells(paths: &[&str]) -> Done {
    let mut cells = list::Cells::default();
    for path in paths {
        let lines = list_at(Path::new(path))?;
        cells.add(&lines).map_err(io::Error::other)?;
    }
    print(|output| cells.print(output))
}

fn switching(paths: &[&str]) -> Done {
    let mut switching = list::Switching::default();
    for path in paths {
        let lines = list_at(Path::new(path))?;
        switching.add(&lines).map_err(io::Error::other)?;
    }
    print(|output| switching.print(output))
}

fn list_at(path: &Path) -> io::Result<Vec<list::Line>> {
    let text = std::fs::read_to_string(path)?;
    list::read(&text).map_err(|mistake| io::Error::other(format!("{}, {mistake}", path.display())))
}
