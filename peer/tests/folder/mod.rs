//! Worked cases that stand in a folder of the repository, some files to each.

use std::collections::BTreeSet;
use std::fs;
use std::path::PathBuf;

/// A folder, from this package's own on.
pub struct Folder(pub &'static str);

impl Folder {
    pub fn path(&self) -> PathBuf {
        PathBuf::from(env!("CARGO_MANIFEST_DIR")).join(self.0)
    }

    /// The names of the files that end in `.ending`.
    pub fn names(&self, ending: &str) -> BTreeSet<String> {
        let files = fs::read_dir(self.path()).unwrap();
        let paths = files.map(|file| file.unwrap().path());
        let of_that_kind = paths.filter(|path| path.extension().is_some_and(|e| e == ending));
        let stem = |path: PathBuf| path.file_stem().unwrap().to_str().unwrap().to_string();
        of_that_kind.map(stem).collect()
    }

    pub fn octets(&self, name: &str, ending: &str) -> Vec<u8> {
        fs::read(self.path().join(format!("{name}.{ending}"))).unwrap()
    }

    pub fn source(&self, name: &str, ending: &str) -> String {
        String::from_utf8(self.octets(name, ending)).unwrap()
    }
}
