//! The commands that make captures and texts.

use super::{file, number, print, print_octets, usage, Done};
use peer::{assemble, load, log, make, morning};
use std::io;
use std::process::ExitCode;

pub fn run(command: &str, words: &[&str]) -> Done {
    match (command, words) {
        ("make", [seed]) => print_octets(&make::capture(number(seed)?)),
        ("make", ["--ties", seed]) => print_octets(&make::tied(number(seed)?)),
        ("make", ["--spacing", seed]) => print_octets(&make::spaced(number(seed)?)),
        ("make", ["--log", seed]) => print_octets(&make::logged(number(seed)?)),
        ("make", ["--compare", seed, first, second]) => {
            let [one, other] = make::compared(number(seed)?);
            std::fs::write(first, one)?;
            std::fs::write(second, other)?;
            Ok(ExitCode::SUCCESS)
        }
        ("make-groups", [seed, calls]) => {
            let list = make::groups(number(seed)?, number(calls)?);
            print_octets(list.map_err(io::Error::other)?.as_bytes())
        }
        ("log", [path]) => logged(path),
        ("assemble", [path]) => assembled(path),
        ("morning", []) => print_octets(morning::text().as_bytes()),
        ("load", [load, count]) => {
            let (load, count) = (load.parse()?, number(count)?);
            print(|output| load::load(load, count, output))
        }
        _ => usage(),
    }
}

fn logged(path: &str) -> Done {
    let log = log::turn::log_of(&file(path)?);
    let log = log.map_err(|none| io::Error::other(format!("{path}: {}", none.words())))?;
    print_octets(&log)
}

fn assembled(path: &str) -> Done {
    let text = std::fs::read_to_string(path)?;
    let capture = assemble::assemble(&text)
        .map_err(|mistake| io::Error::other(format!("{path}, {mistake}")))?;
    print_octets(&capture)
}
