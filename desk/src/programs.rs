//! The proved programs, run on a capture.

use crate::cli::Failure;
use std::io::{Read, Write};
use std::path::PathBuf;
use std::process::{Command, Stdio};

/// Said where a program cannot be run.
pub const HINT: &str = "KORVEZUL_BIN names the folder of watch, why, spacing and compare";

/// Where `watch`, `why`, `spacing` and `compare` are: in the folder that KORVEZUL_BIN names, else `target/bin` of the
/// folder in which `desk` is run.
pub fn program(name: &str) -> PathBuf {
    let folder =
        std::env::var_os("KORVEZUL_BIN").map_or_else(|| PathBuf::from("target/bin"), PathBuf::from);
    folder.join(name)
}

/// Whether there is such a program at all.
pub fn is_there(name: &str) -> bool {
    program(name).exists()
}

/// What a program writes for an input: fed by one thread and read by another, so that neither waits
/// for the other for ever.
pub fn run(name: &str, words: &[&str], input: &[u8]) -> Result<Vec<u8>, Failure> {
    let path = program(name);
    let mut child = Command::new(&path)
        .args(words)
        .stdin(Stdio::piped())
        .stdout(Stdio::piped())
        .stderr(Stdio::piped())
        .spawn()
        .map_err(|error| {
            Failure::new(format!("cannot run {}: {error} ({HINT})", path.display()))
        })?;
    let mut stdin = child.stdin.take().expect("piped");
    let mut stdout = child.stdout.take().expect("piped");
    let mut stderr = child.stderr.take().expect("piped");
    let mut text = Vec::new();
    let mut said = String::new();
    std::thread::scope(|scope| {
        scope.spawn(move || {
            // A program that wants no more closes its end; that is no failure of ours.
            let _ = stdin.write_all(input);
        });
        let said = &mut said;
        scope.spawn(move || stderr.read_to_string(said));
        stdout.read_to_end(&mut text)
    })?;
    let status = child.wait()?;
    if !said.is_empty() || !status.success() {
        return Err(Failure::new(format!(
            "{name} failed: {status} {}",
            said.trim()
        )));
    }
    Ok(text)
}
