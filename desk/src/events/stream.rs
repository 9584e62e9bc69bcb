//! A proved program at work: one thread feeds it, another reads its lines.

use crate::cli::Failure;
use crate::programs;
use std::io::{self, BufRead, BufReader, ErrorKind, Read};
use std::process::{Child, ChildStderr, ChildStdin, ChildStdout, Command, Stdio};

/// The lines that a program puts, one at a time.
pub struct Lines {
    output: BufReader<ChildStdout>,
    line: String,
}

impl Lines {
    fn of(output: ChildStdout) -> Lines {
        Lines {
            output: BufReader::with_capacity(1 << 16, output),
            line: String::new(),
        }
    }

    /// The next line without its end; nothing behind the last one.
    pub fn next_line(&mut self) -> Result<Option<&str>, Failure> {
        self.line.clear();
        let length = self.output.read_line(&mut self.line)?;
        Ok((length > 0).then(|| self.line.trim_end_matches('\n')))
    }
}

/// Runs a program over what `feed` writes, and gives what `read` makes of its lines. A program that
/// fails is told of before anything that its lines lack.
pub fn run<T>(
    name: &str,
    words: &[String],
    feed: impl FnOnce(ChildStdin) -> io::Result<()> + Send,
    read: impl FnOnce(&mut Lines) -> Result<T, Failure>,
) -> Result<T, Failure> {
    let (mut child, pipes) = start(name, words)?;
    let (fed, read, said) = std::thread::scope(|scope| {
        let feeding = scope.spawn(move || feed(pipes.input));
        let saying = scope.spawn(move || all_of(pipes.said));
        let mut lines = Lines::of(pipes.output);
        let read = read(&mut lines);
        if read.is_err() {
            // Nobody wants the rest. It must not say that it cannot write it: that would hide the failure.
            let _ = child.kill();
        }
        drop(lines);
        (feeding.join(), read, saying.join())
    });
    let status = child.wait()?;
    let said = said.unwrap_or_default();
    if !said.is_empty() || (read.is_ok() && !status.success()) {
        let said = said.trim();
        return Err(Failure::new(format!("{name} failed: {status} {said}")));
    }
    match fed {
        Ok(Err(error)) if error.kind() != ErrorKind::BrokenPipe => Err(error.into()),
        Err(_) => Err(Failure::new(format!("feeding {name} failed"))),
        _ => read,
    }
}

struct Pipes {
    input: ChildStdin,
    output: ChildStdout,
    said: ChildStderr,
}

fn start(name: &str, words: &[String]) -> Result<(Child, Pipes), Failure> {
    let path = programs::program(name);
    let told = |error: io::Error| {
        let path = path.display();
        let hint = programs::HINT;
        Failure::new(format!("cannot run {path}: {error} ({hint})"))
    };
    let mut child = Command::new(&path)
        .args(words)
        .stdin(Stdio::piped())
        .stdout(Stdio::piped())
        .stderr(Stdio::piped())
        .spawn()
        .map_err(told)?;
    match (child.stdin.take(), child.stdout.take(), child.stderr.take()) {
        (Some(input), Some(output), Some(said)) => Ok((
            child,
            Pipes {
                input,
                output,
                said,
            },
        )),
        _ => Err(Failure::new(format!("{name} has no pipes"))),
    }
}

fn all_of(mut said: ChildStderr) -> String {
    let mut octets = Vec::new();
    // What was read before a failure is still worth telling.
    let _ = said.read_to_end(&mut octets);
    String::from_utf8_lossy(&octets).into_owned()
}
