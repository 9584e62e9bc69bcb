//! The lists of calls of the repository: this program answers as they say, and
//! between them they play every cell of the three machines.

use peer::list::{self, Cells, Line};
use std::path::{Path, PathBuf};

fn lists() -> Vec<PathBuf> {
    let folder = Path::new(env!("CARGO_MANIFEST_DIR")).join("../hosts/cases/lists");
    list::of_folder(&folder).unwrap()
}

fn lines_of(path: &Path) -> Vec<Line> {
    list::read(&std::fs::read_to_string(path).unwrap()).unwrap()
}

#[test]
fn every_call_is_answered_as_it_was_worked_out() {
    assert!(!lists().is_empty());
    for path in lists() {
        let played = list::play(&lines_of(&path));
        assert!(played.calls > 0, "{}", path.display());
        assert!(
            played.wrong.is_empty(),
            "{}, {:?}",
            path.display(),
            played.wrong
        );
    }
}

#[test]
fn a_list_spelled_out_is_the_same_list() {
    for path in lists() {
        let lines = lines_of(&path);
        assert_eq!(list::read(&list::spell(&lines)).unwrap(), lines);
    }
}

#[test]
fn every_cell_of_the_three_machines_is_played() {
    let mut cells = Cells::default();
    for path in lists().iter().filter(|path| is_of_cells(path)) {
        cells.add(&lines_of(path)).unwrap();
    }
    assert!(cells.least() > 0);
}

/// The lists with a session for each cell; the others follow topics.
fn is_of_cells(path: &Path) -> bool {
    path.file_name()
        .is_some_and(|name| name.to_string_lossy().ends_with("_cells.calls"))
}
