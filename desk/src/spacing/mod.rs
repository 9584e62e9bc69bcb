//! How late the CCs of a circuit came: number of pairs, least, greatest, sum and sum of sizes, all
//! as the program `spacing` says them. Nothing is reckoned here but the difference of two answers.

mod ask;
mod bins;
mod circuits;
mod parts;
mod words;

pub use ask::Answer;
pub use bins::{Bins, COUNT, MIDDLE};
pub use circuits::{circuits, Circuit};
pub use parts::{Parts, Room};
pub use words::{bin_words, json, mean, text};

/// The program that is asked.
pub const PROGRAM: &str = "spacing";

/// The five numbers of some pairs, in microseconds.
#[derive(Clone, Copy, Debug, Default, PartialEq, Eq)]
pub struct Numbers {
    pub pairs: u64,
    /// None where there is no pair, as the greatest.
    pub least: Option<i64>,
    pub greatest: Option<i64>,
    pub sum: i64,
    pub sizes: i64,
}
