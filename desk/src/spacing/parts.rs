//! The pairs of a circuit part by part. `spacing` is asked of the records up to one CC and up to a
//! later one; numbers and sums add up over parts, so what the second answer has more is of the pairs
//! between them. A part of one pair has its exact error.

use super::ask::Answer;
use super::circuits::Circuit;
use super::Numbers;
use crate::cli::Failure;

/// The most parts of a circuit: more would show no more.
const MOST_PARTS: usize = 100;
/// How often the program is run for all circuits of a page, and on how many records in all.
const MOST_RUNS: usize = 1_000;
const MOST_RECORDS: u64 = 4_000_000;

/// The parts that a circuit may have, where so many circuits are shown.
#[derive(Clone, Copy)]
pub struct Room {
    runs: usize,
    records: u64,
}

impl Room {
    pub fn among(circuits: usize) -> Room {
        let circuits = circuits.max(1);
        Room {
            runs: (MOST_RUNS / circuits).clamp(1, MOST_PARTS),
            records: MOST_RECORDS / circuits as u64,
        }
    }

    /// The parts begin at the first record all of them, so that on the average each reads half of
    /// the records.
    fn parts(&self, circuit: &Circuit) -> usize {
        let by_records = 2 * self.records / circuit.records().max(1);
        let most = usize::try_from(by_records).unwrap_or(usize::MAX);
        most.min(self.runs).min(circuit.ccs()).max(1)
    }
}

/// Some pairs that follow each other: how many, and the sum of their errors.
#[derive(Clone, Copy, Debug, PartialEq, Eq)]
pub struct Part {
    pub pairs: u64,
    pub sum: i128,
}

/// What is shown of a circuit.
pub struct Parts {
    /// Of all its records.
    pub answer: Answer,
    pub parts: Vec<Part>,
}

impl Parts {
    pub fn of(circuit: &Circuit, room: Room) -> Result<Parts, Failure> {
        let (ccs, wanted) = (circuit.ccs(), room.parts(circuit));
        let mut answer = Answer::Numbers(Numbers::default());
        let mut parts = Vec::new();
        for place in 1..=wanted {
            // As even as can be; the last part ends with the last record.
            let next = Answer::of_octets(circuit.label, circuit.upto(place * ccs / wanted))?;
            parts.extend(between(&answer, &next));
            answer = next;
        }
        Ok(Parts { answer, parts })
    }

    /// The most pairs of a part: 1 where each pair is shown for itself.
    pub fn coarse(&self) -> u64 {
        let pairs = self.parts.iter().map(|part| part.pairs);
        pairs.max().unwrap_or(0)
    }
}

/// What a later answer has more; nothing where it has no more pairs, or where numbers do not fit.
fn between(earlier: &Answer, later: &Answer) -> Option<Part> {
    let (Answer::Numbers(earlier), Answer::Numbers(later)) = (earlier, later) else {
        return None;
    };
    let pairs = later.pairs.checked_sub(earlier.pairs)?;
    let sum = i128::from(later.sum) - i128::from(earlier.sum);
    (pairs > 0).then_some(Part { pairs, sum })
}

#[cfg(test)]
mod tests {
    use super::*;

    fn answer(pairs: u64, sum: i64) -> Answer {
        Answer::Numbers(Numbers {
            pairs,
            sum,
            ..Numbers::default()
        })
    }

    #[test]
    fn differences_are_exact() {
        let part = |pairs, sum| Some(Part { pairs, sum });
        assert_eq!(between(&answer(1, 300), &answer(2, -100)), part(1, -400));
        assert_eq!(between(&answer(1, 300), &answer(1, 300)), None);
        let ends = between(&answer(0, i64::MIN), &answer(3, i64::MAX));
        assert_eq!(ends, part(3, (1 << 64) - 1));
        assert_eq!(between(&answer(1, 300), &Answer::TooLarge), None);
        assert_eq!(between(&Answer::TooLarge, &Answer::TooLarge), None);
    }

    #[test]
    fn many_circuits_have_fewer_parts_each() {
        assert_eq!(Room::among(0).runs, 100);
        assert_eq!(Room::among(10).runs, 100);
        assert_eq!(Room::among(64).runs, 15);
        assert_eq!(Room::among(1_000_000).runs, 1);
    }
}
