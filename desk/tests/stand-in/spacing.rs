//! Stands in for `spacing` in the tests where that is not built: the second program's.

use peer::spacing;
use std::io;
use std::process::ExitCode;

fn main() -> ExitCode {
    let words: Vec<String> = std::env::args().skip(1).collect();
    let words: Vec<&str> = words.iter().map(String::as_str).collect();
    let label = spacing::label_of(&words);
    let said = label.map(|label| spacing::spacing(label, io::stdin().lock(), &mut io::stdout()));
    match said {
        Some(Ok(())) => ExitCode::SUCCESS,
        _ => ExitCode::from(2),
    }
}
