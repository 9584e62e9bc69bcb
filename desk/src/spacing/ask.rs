//! The program `spacing` asked, and its line read.

use super::circuits::Circuit;
use super::{Numbers, PROGRAM};
use crate::cli::Failure;
use crate::programs;

/// What `spacing` says.
#[derive(Clone, Copy, Debug, PartialEq, Eq)]
pub enum Answer {
    Numbers(Numbers),
    /// Refusal 21: one of the five does not fit a signed 64-bit number.
    TooLarge,
}

impl Answer {
    /// Of all records of a circuit.
    pub fn of(circuit: &Circuit) -> Result<Answer, Failure> {
        Answer::of_octets(circuit.label, circuit.whole())
    }

    pub fn of_octets(label: u32, capture: &[u8]) -> Result<Answer, Failure> {
        let text = programs::run(PROGRAM, &[&label.to_string()], capture)?;
        let text = String::from_utf8_lossy(&text);
        let answer = text.strip_suffix('\n').and_then(Answer::read);
        answer.ok_or_else(|| {
            let text = text.trim_end();
            Failure::new(format!("label {label}: spacing answers `{text}`"))
        })
    }

    fn read(line: &str) -> Option<Answer> {
        if line == "refused 21" {
            return Some(Answer::TooLarge);
        }
        let words: Vec<&str> = line.split(' ').collect();
        let [pairs, least, greatest, sum, sizes] = words.try_into().ok()?;
        let (least, greatest) = (number_or_none(least)?, number_or_none(greatest)?);
        let numbers = Numbers {
            pairs: pairs.parse().ok()?,
            least,
            greatest,
            sum: sum.parse().ok()?,
            sizes: sizes.parse().ok().filter(|sizes| *sizes >= 0)?,
        };
        // Without a pair there is neither, with one there are both.
        let some = numbers.pairs > 0;
        (least.is_some() == some && greatest.is_some() == some).then_some(Answer::Numbers(numbers))
    }
}

/// `-` for none.
fn number_or_none(word: &str) -> Option<Option<i64>> {
    match word {
        "-" => Some(None),
        _ => word.parse().ok().map(Some),
    }
}

#[cfg(test)]
mod tests {
    use super::*;

    #[test]
    fn lines_of_the_program() {
        let numbers = Numbers {
            pairs: 2,
            least: Some(-400),
            greatest: Some(300),
            sum: -100,
            sizes: 700,
        };
        let read = Answer::read("2 -400 300 -100 700");
        assert_eq!(read, Some(Answer::Numbers(numbers)));
        let none = Answer::Numbers(Numbers::default());
        assert_eq!(Answer::read("0 - - 0 0"), Some(none));
        assert_eq!(Answer::read("refused 21"), Some(Answer::TooLarge));
    }

    #[test]
    fn lines_that_are_none() {
        for line in [
            "",
            "refused 2",
            "2 -400 300 -100",
            "2 -400 300 -100 700 1",
            "2 - - -100 700",
            "0 1 1 0 0",
            "-1 - - 0 0",
            "2 -400 300 -100 -700",
            "2 -400 300 -100 9223372036854775808",
        ] {
            assert_eq!(Answer::read(line), None, "{line}");
        }
    }
}
