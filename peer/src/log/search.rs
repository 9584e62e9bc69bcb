//! Which entry of an index a reading leads to, and over which others.

/// The entries looked at, in order, and the one found.
#[derive(Clone, Debug, PartialEq, Eq)]
pub struct Search {
    pub looked: Vec<usize>,
    pub found: usize,
}

/// Halves the entries that are still possible until one is left. The first is
/// known; of n the one n/2 past the first is looked at, and if its clock is not
/// later than the reading, those before it are out, else it and those behind.
pub fn search(clocks: &[u64], reading: u64) -> Search {
    let mut possible = 0..clocks.len();
    let mut looked = Vec::new();
    while possible.len() > 1 {
        let middle = possible.start + possible.len() / 2;
        looked.push(middle);
        match clocks[middle] <= reading {
            true => possible.start = middle,
            false => possible.end = middle,
        }
    }
    Search {
        looked,
        found: possible.start,
    }
}
