//! The commands by their words, and what they share.

mod asking;
mod checking;
mod making;
mod playing;

use std::io::{self, BufReader, BufWriter, StdinLock, StdoutLock, Write};
use std::process::ExitCode;

const USAGE: &str = "usage: peer watch [--own-table] < capture
       peer why LABEL THING [if=NODE/INTERFACE] [global=ID] [upto=RECORD] < capture
       peer spacing LABEL < capture
       peer compare [--lines] FIRST SECOND [ROOM]
       peer log CAPTURE > log
       peer index LOG LABEL [ROOM]
       peer ask LOG LABEL READING
       peer make [--ties|--spacing] SEED > capture
       peer make --log SEED > log
       peer make --compare SEED FIRST SECOND
       peer make-groups SEED COUNT > list
       peer assemble TEXT > capture
       peer lists FOLDER
       peer asks FOLDER
       peer spell LIST > list
       peer answer < list
       peer cells LIST...
       peer switching LIST...
       peer dhc < list
       peer check N [--program PATH]
       peer check-why N [--program PATH]
       peer check-spacing N [--program PATH]
       peer check-compare N [--program PATH]
       peer check-ask N [--programs FOLDER]
       peer cover N
       peer morning > TEXT
       peer load one|many|mixed|full COUNT > capture";

const BUFFER: usize = 1 << 16;

type Done = io::Result<ExitCode>;

/// Runs the command that the words name, or says how to use them.
pub fn run(words: &[&str]) -> Done {
    let Some((command, rest)) = words.split_first() else {
        return usage();
    };
    match *command {
        "watch" | "why" | "spacing" | "compare" | "index" | "ask" => asking::run(command, rest),
        "make" | "make-groups" | "log" | "assemble" | "morning" | "load" => {
            making::run(command, rest)
        }
        "lists" | "asks" | "spell" | "answer" | "cells" | "switching" | "dhc" => {
            playing::run(command, rest)
        }
        "check" | "check-why" | "check-spacing" | "check-compare" | "check-ask" | "cover" => {
            checking::run(command, rest)
        }
        _ => usage(),
    }
}

fn usage() -> Done {
    eprintln!("{USAGE}");
    Ok(ExitCode::from(2))
}

/// Prints the one line of usage of a program that is answered for.
fn usage_of(program: &str) -> Done {
    println!("{program}");
    Ok(ExitCode::from(2))
}

/// Runs something that prints, with buffered standard output.
fn print(printing: impl FnOnce(&mut BufWriter<StdoutLock<'_>>) -> io::Result<()>) -> Done {
    let mut output = BufWriter::with_capacity(BUFFER, io::stdout().lock());
    printing(&mut output)?;
    output.flush()?;
    Ok(ExitCode::SUCCESS)
}

fn print_octets(octets: &[u8]) -> Done {
    print(|output| output.write_all(octets))
}

/// Standard input with room to read it in.
fn input() -> BufReader<StdinLock<'static>> {
    BufReader::with_capacity(BUFFER, io::stdin().lock())
}

/// A file, whole.
fn file(path: &str) -> io::Result<Vec<u8>> {
    std::fs::read(path).map_err(|error| io::Error::new(error.kind(), format!("{path}: {error}")))
}

fn number<N: std::str::FromStr>(word: &str) -> io::Result<N> {
    word.parse()
        .map_err(|_| io::Error::other(format!("not a number: {word}")))
}
