//! What the tests of the commands share: running `desk`, files of its own, stored captures.
#![allow(dead_code)]

use std::path::{Path, PathBuf};
use std::process::{Command, Output};
use std::sync::OnceLock;

/// The folder of this package.
pub fn package() -> &'static Path {
    Path::new(env!("CARGO_MANIFEST_DIR"))
}

/// Where `watch` and `why` are: in the folder that KORVEZUL_BIN names, else in that of the gate.
fn proved() -> PathBuf {
    let named = std::env::var_os("KORVEZUL_BIN").map(PathBuf::from);
    named.unwrap_or_else(|| package().join("../target/bin"))
}

/// The programs for which the second program's can stand in.
const STOOD_IN_FOR: [&str; 2] = ["spacing", "compare"];

/// That folder; or one with links to its programs and stand-ins for those that it does not have.
pub fn programs() -> PathBuf {
    static FOLDER: OnceLock<PathBuf> = OnceLock::new();
    let all = || STOOD_IN_FOR.iter().all(|name| proved().join(name).exists());
    let folder = FOLDER.get_or_init(|| match all() {
        true => proved(),
        false => with_stand_ins("programs"),
    });
    folder.clone()
}

/// A folder with links to the proved programs, and to stand-ins for those that are not there.
fn with_stand_ins(name: &str) -> PathBuf {
    let desk = Path::new(env!("CARGO_BIN_EXE_desk"));
    let stand_ins = desk.parent().expect("a folder").join("examples");
    let folder = folder_of_two(name);
    for program in STOOD_IN_FOR {
        let proved = proved().join(program);
        let there = match proved.exists() {
            true => std::fs::canonicalize(proved).expect("a program"),
            false => stand_ins.join(program),
        };
        assert!(
            there.exists(),
            "no stand-in: cargo test without --test builds it, or cargo build --examples"
        );
        link(&there, &folder.join(program));
    }
    folder
}

/// A folder with links to `watch` and `why` alone.
pub fn folder_of_two(name: &str) -> PathBuf {
    let folder = Path::new(env!("CARGO_TARGET_TMPDIR")).join(name);
    let _ = std::fs::remove_dir_all(&folder);
    std::fs::create_dir_all(&folder).expect("a folder");
    let proved = std::fs::canonicalize(proved()).expect("the folder of the programs");
    for program in ["watch", "why"] {
        link(&proved.join(program), &folder.join(program));
    }
    folder
}

/// A folder in which a program is the given line of a shell.
pub fn fake(name: &str, program: &str, line: &str) -> PathBuf {
    let folder = folder_of_two(name);
    // A file that this process wrote could not be run while another test starts a program, which
    // has all that is open here open for a moment.
    let written = Command::new("sh")
        .args([
            "-c",
            "printf '#!/bin/sh\\n%s\\n' \"$1\" >\"$0\" && chmod +x \"$0\"",
        ])
        .arg(folder.join(program))
        .arg(line)
        .status();
    assert!(written.expect("sh runs").success());
    folder
}

fn link(program: &Path, at: &Path) {
    std::os::unix::fs::symlink(program, at).expect("a link");
}

/// Runs `desk`.
pub fn desk(words: &[&str]) -> Output {
    desk_with(&programs(), words)
}

/// Runs `desk` with the programs of a folder.
pub fn desk_with(programs: &Path, words: &[&str]) -> Output {
    Command::new(env!("CARGO_BIN_EXE_desk"))
        .args(words)
        .env("KORVEZUL_BIN", programs)
        .output()
        .expect("desk runs")
}

/// What `desk` prints; it has to succeed and say nothing else.
pub fn printed(words: &[&str]) -> Vec<u8> {
    let output = desk(words);
    let said = String::from_utf8_lossy(&output.stderr);
    assert!(
        output.status.success() && said.is_empty(),
        "{words:?}: {} {said}",
        output.status
    );
    output.stdout
}

/// What `desk` says on standard error; it has to fail, and not by a panic.
pub fn refused(words: &[&str]) -> String {
    let output = desk(words);
    let said = String::from_utf8_lossy(&output.stderr).into_owned();
    let code = output.status.code();
    assert!(matches!(code, Some(1 | 2)), "{words:?}: {code:?} {said}");
    said
}

/// What `watch` itself prints of a capture.
pub fn watch(path: &str) -> String {
    let capture = std::fs::File::open(path).expect("a capture");
    let output = Command::new(programs().join("watch"))
        .stdin(capture)
        .output()
        .expect("watch runs");
    String::from_utf8(output.stdout).expect("UTF-8")
}

/// Writes a file of a test's own and gives its path.
pub fn file(name: &str, octets: &[u8]) -> String {
    let path = Path::new(env!("CARGO_TARGET_TMPDIR")).join(name);
    std::fs::write(&path, octets).expect("a file is written");
    path.to_str().expect("a path in UTF-8").to_string()
}

/// The captures of the repository, with their paths.
pub fn stored_captures() -> Vec<(PathBuf, Vec<u8>)> {
    let mut captures = Vec::new();
    for folder in ["../crates/captures/data", "../crates/questions/data"] {
        let entries = std::fs::read_dir(package().join(folder)).expect("a folder");
        for entry in entries {
            let path = entry.expect("an entry").path();
            if path.extension().is_some_and(|end| end == "capture") {
                let octets = std::fs::read(&path).expect("a capture");
                captures.push((path, octets));
            }
        }
    }
    assert!(captures.len() > 70, "{}", captures.len());
    captures
}
