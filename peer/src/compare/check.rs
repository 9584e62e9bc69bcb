//! Comparison with another program over many pairs of captures.

use super::cover::Cover;
use crate::check::run;
use crate::make;
use std::fs;
use std::io;
use std::path::{Path, PathBuf};

/// Gives the pairs of seeds 1 to `count` to the program and compares the lines.
/// Gives the number of lines, or describes the first difference.
pub fn check(count: u64, program: &Path) -> io::Result<Result<u64, String>> {
    let files = Files::new()?;
    let mut lines = 0;
    for seed in 1..=count {
        let [first, second] = make::compared(seed);
        let expected = super::compare(&first, &second).lines();
        let outcome = run(program, &files.write(&first, &second)?, &[], 1)?;
        if !outcome.is(&expected) {
            let theirs = outcome.told();
            return Ok(Err(format!(
                "seed {seed}: compare FIRST SECOND\nexpected:\n{expected}program:\n{theirs}"
            )));
        }
        lines += expected.lines().count() as u64;
    }
    Ok(Ok(lines))
}

/// Counts what differs between the pairs of seeds 1 to `count`.
pub fn cover(count: u64, output: &mut impl io::Write) -> io::Result<()> {
    let mut cover = Cover::default();
    for seed in 1..=count {
        let [first, second] = make::compared(seed);
        cover.add(&first, &second);
    }
    writeln!(output, "{count} pairs")?;
    cover.print(output)
}

/// A folder with the two captures of a pair, gone when it is dropped.
struct Files {
    folder: PathBuf,
}

impl Files {
    fn new() -> io::Result<Files> {
        let name = format!("peer-compare-{}", std::process::id());
        let folder = std::env::temp_dir().join(name);
        fs::create_dir_all(&folder)?;
        Ok(Files { folder })
    }

    /// Writes a pair and gives the words that name it.
    fn write(&self, first: &[u8], second: &[u8]) -> io::Result<[String; 2]> {
        let (one, other) = (self.folder.join("first"), self.folder.join("second"));
        fs::write(&one, first)?;
        fs::write(&other, second)?;
        Ok([one, other].map(|path| path.to_string_lossy().into_owned()))
    }
}

impl Drop for Files {
    fn drop(&mut self) {
        // What is left behind in a folder of temporary files harms nobody.
        let _ = fs::remove_dir_all(&self.folder);
    }
}
