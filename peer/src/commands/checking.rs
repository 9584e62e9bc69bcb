//! The commands that compare with another program, or count what they would.

use super::{number, print, usage, Done};
use peer::{check, compare, cover, log, spacing, why};
use std::io;
use std::path::Path;
use std::process::ExitCode;

/// The program compared with, unless another is named.
const DEFAULT_PROGRAM: &str = "target/bin/watch";

pub fn run(command: &str, words: &[&str]) -> Done {
    match words {
        [count] => counted(command, number(count)?),
        [count, "--programs", path] if command == "check-ask" => {
            checked(command, number(count)?, Path::new(path))
        }
        [count, "--program", path] if command != "check-ask" => {
            checked(command, number(count)?, Path::new(path))
        }
        _ => usage(),
    }
}

/// Without a program: counts of what is made and asked.
fn counted(command: &str, count: u64) -> Done {
    match command {
        "check" => checked(command, count, Path::new(DEFAULT_PROGRAM)),
        "check-why" => print(|output| why::check::cover(count, output)),
        "check-spacing" => print(|output| spacing::check::cover(count, output)),
        "check-compare" => print(|output| compare::check::cover(count, output)),
        "check-ask" => print(|output| log::check::cover(count, output)),
        "cover" => print(|output| cover::cover(count, output)),
        _ => usage(),
    }
}

fn checked(command: &str, count: u64, program: &Path) -> Done {
    let compared: io::Result<Result<u64, String>> = match command {
        "check" => check::check(count, program),
        "check-why" => why::check::check(count, program),
        "check-spacing" => spacing::check::check(count, program),
        "check-compare" => compare::check::check(count, program),
        "check-ask" => log::check::check(count, program),
        _ => return usage(),
    };
    let [these, what] = match command {
        "check" => ["captures", "records"],
        "check-compare" => ["pairs", "lines"],
        "check-ask" => ["logs", "questions"],
        _ => ["captures", "questions"],
    };
    Ok(match compared? {
        Ok(number) => {
            println!("{count} {these}, {number} {what}, no difference");
            ExitCode::SUCCESS
        }
        Err(difference) => {
            println!("{difference}");
            ExitCode::FAILURE
        }
    })
}
