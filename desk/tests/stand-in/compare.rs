//! Stands in for `compare` in the tests where that is not built: the second program's.

use peer::compare;
use std::process::ExitCode;

fn main() -> ExitCode {
    let words: Vec<String> = std::env::args().skip(1).collect();
    let [first, second] = &words[..] else {
        println!("{}", compare::USAGE);
        return ExitCode::from(2);
    };
    match (std::fs::read(first), std::fs::read(second)) {
        (Ok(first), Ok(second)) => {
            print!("{}", compare::compare(&first, &second).lines());
            ExitCode::SUCCESS
        }
        _ => ExitCode::from(2),
    }
}
