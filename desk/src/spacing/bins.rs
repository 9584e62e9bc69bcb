//! Errors counted by size: a bin for each power of ten, early ones to the left, late ones to the
//! right, and those on time to the microsecond between them. All circuits have the same bins, so
//! that they can be compared; one long silence does not press the others together.

use super::parts::Part;

/// Sizes below 10, 100, .. 1,000,000 microseconds, and from there on.
const SIDE: usize = 7;
pub const COUNT: usize = 2 * SIDE + 1;
/// On time.
pub const MIDDLE: usize = SIDE;

/// How many pairs are in each bin.
#[derive(Clone, Debug, Default, PartialEq, Eq)]
pub struct Bins {
    pub pairs: [u64; COUNT],
}

impl Bins {
    /// A part of several pairs counts them all at their mean.
    pub fn of(parts: &[Part]) -> Bins {
        let mut bins = Bins::default();
        for part in parts {
            bins.pairs[place(part)] += part.pairs;
        }
        bins
    }

    pub fn greatest(&self) -> u64 {
        self.pairs.iter().copied().max().unwrap_or(0)
    }
}

/// The bin of a part's mean.
fn place(part: &Part) -> usize {
    let (size, pairs) = (part.sum.unsigned_abs(), u128::from(part.pairs));
    // The mean is below a limit exactly if the sum is below so many times that limit.
    let limits = (1..SIDE as u32).map(|power| 10_u128.pow(power) * pairs);
    let steps = match size {
        0 => 0,
        _ => 1 + limits.filter(|limit| *limit <= size).count(),
    };
    match part.sum < 0 {
        true => MIDDLE - steps,
        false => MIDDLE + steps,
    }
}

#[cfg(test)]
mod tests {
    use super::*;

    fn bin(pairs: u64, sum: i128) -> isize {
        place(&Part { pairs, sum }) as isize - MIDDLE as isize
    }

    #[test]
    fn each_power_of_ten_begins_a_bin() {
        assert_eq!(bin(1, 0), 0);
        for (error, step) in [(1, 1), (9, 1), (10, 2), (99, 2), (100, 3), (999, 3)] {
            assert_eq!((bin(1, error), bin(1, -error)), (step, -step), "{error}");
        }
        assert_eq!((bin(1, 999_999), bin(1, 1_000_000)), (6, 7));
        assert_eq!((bin(1, 1 << 63), bin(1, -(1 << 63))), (7, -7));
    }

    #[test]
    fn several_pairs_count_at_their_mean() {
        assert_eq!((bin(3, 29), bin(3, 30), bin(3, -31)), (1, 2, -2));
        assert_eq!(bin(5, 0), 0);
        let parts = [Part { pairs: 3, sum: 30 }, Part { pairs: 1, sum: 12 }];
        assert_eq!(Bins::of(&parts).pairs[MIDDLE + 2], 4);
        assert_eq!(Bins::of(&parts).greatest(), 4);
    }
}
