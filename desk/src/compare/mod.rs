//! `desk compare`: two captures of one tap, and the records in which they differ, in words. What
//! differs is said by the program `compare`; here the records are looked up and shown.

mod ask;
mod show;

pub use ask::{Answer, Difference, What};
use show::Side;

use crate::cli::{self, Done, Failure, Words};
use std::io::{self, BufWriter, Write};

/// The program that is asked.
pub const PROGRAM: &str = "compare";

const HELP: &str = "usage: desk compare FIRST SECOND

Compares two captures record by record at the same position. For each record that differs: its
number, the fields in which it does (time, label, kind, length, body) or which capture alone has it,
and the record of each capture in the words of `desk text`. The last line says how many differ and
where in the first capture they begin. Fields that no call reads count too.

What differs is what the program `compare` says; KORVEZUL_BIN names its folder (target/bin). It
refuses a capture that is cut or has a bad header: 22 the first, 23 the second.
";

pub fn run(words: &[String]) -> Done {
    let words = Words::of(words, &[], &[])?;
    if words.has("--help") {
        return cli::say(HELP);
    }
    let [first, second] = words.plain(["FIRST", "SECOND"])?;
    let sides = [Side::of(first)?, Side::of(second)?];
    match Answer::of(first, second)? {
        Answer::Listed(differences, rest) => show(&differences, rest, sides),
        Answer::FirstBad => bad(first, 22, sides.into_iter().next()),
        Answer::SecondBad => bad(second, 23, sides.into_iter().nth(1)),
    }
}

fn show(differences: &[Difference], rest: u64, mut sides: [Side; 2]) -> Done {
    let mut out = BufWriter::new(io::stdout().lock());
    for difference in differences {
        show::put(&mut out, difference, &mut sides)?;
    }
    out.write_all(show::sum(differences, rest).as_bytes())?;
    Ok(out.flush()?)
}

/// A refused capture, and where it goes wrong.
fn bad(path: &str, number: u8, side: Option<Side>) -> Done {
    let damage = side.map_or(Ok(String::new()), Side::damage)?;
    Err(Failure::new(format!("{path}: refused {number}, {damage}")))
}
