//! The examples of the README are run, one after the other, and print what stands there.

mod common;

use common::{package, programs};
use std::path::{Path, PathBuf};
use std::process::Command;

/// A command of an example, and the lines below it.
struct Example {
    command: String,
    shown: String,
}

fn examples(page: &str) -> Vec<Example> {
    let mut examples: Vec<Example> = Vec::new();
    let blocks = page.split("```").skip(1).step_by(2);
    for block in blocks.filter(|block| block.starts_with("\n$ ")) {
        for line in block.trim_matches('\n').lines() {
            if let Some(command) = line.strip_prefix("$ ") {
                let (command, shown) = (command.to_string(), String::new());
                examples.push(Example { command, shown });
            } else if let Some(example) = examples.last_mut() {
                example.shown += line;
                example.shown += "\n";
            }
        }
    }
    examples
}

/// A folder to run them in, from which the repository's captures are seen.
fn folder() -> PathBuf {
    let folder = Path::new(env!("CARGO_TARGET_TMPDIR")).join("readme");
    let _ = std::fs::remove_dir_all(&folder);
    std::fs::create_dir_all(&folder).expect("a folder");
    let there = package().join("../crates");
    std::os::unix::fs::symlink(there, folder.join("crates")).expect("a link");
    folder
}

/// What a command prints, on both outputs, where `desk` is the program under test.
fn printed(command: &str, folder: &Path) -> String {
    let desk = Path::new(env!("CARGO_BIN_EXE_desk"))
        .parent()
        .expect("a folder");
    let others = std::env::var("PATH").unwrap_or_default();
    let output = Command::new("sh")
        .args(["-c", &format!("exec 2>&1; {command}")])
        .current_dir(folder)
        .env("PATH", format!("{}:{others}", desk.display()))
        .env("KORVEZUL_BIN", programs())
        .output()
        .expect("sh runs");
    String::from_utf8(output.stdout).expect("UTF-8")
}

#[test]
fn the_examples_print_what_they_show() {
    let page = std::fs::read_to_string(package().join("README.md")).expect("the README");
    let folder = folder();
    let examples = examples(&page);
    assert!(examples.len() > 9, "{}", examples.len());
    for Example { command, shown } in examples {
        // A file that is shown is one that the reader writes.
        if let Some(name) = command.strip_prefix("cat ") {
            std::fs::write(folder.join(name), &shown).expect("a file");
        }
        assert_eq!(printed(&command, &folder), shown, "{command}");
    }
}
