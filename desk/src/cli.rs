//! What all commands do alike: words of the command line, failures, progress.

use std::fmt;
use std::io::{self, IsTerminal, Write};
use std::process::ExitCode;
use std::time::{Duration, Instant};

pub const USAGE: &str = "usage: desk import TAP SESSIONS > capture
       desk export CAPTURE > pcapng
       desk text CAPTURE|LOG
       desk assemble TEXT > capture|log
       desk events CAPTURE [--label L] [--from T] [--to T] [--json] [--spacing]
       desk timeline CAPTURE > page.html
       desk case CAPTURE LABEL --from T --to T > page.html
       desk compare FIRST SECOND
       desk log CAPTURE > log
       desk log --check LOG
Each command says more with --help.
";

/// What went wrong, and where: told on standard error, and the exit is not zero.
#[derive(Debug)]
pub struct Failure {
    pub what: String,
    pub usage: bool,
}

impl Failure {
    pub fn new(what: impl Into<String>) -> Failure {
        Failure {
            what: what.into(),
            usage: false,
        }
    }

    /// The words of the command line are wrong.
    pub fn usage(what: impl Into<String>) -> Failure {
        Failure {
            what: what.into(),
            usage: true,
        }
    }
}

impl fmt::Display for Failure {
    fn fmt(&self, f: &mut fmt::Formatter) -> fmt::Result {
        write!(f, "{}", self.what)
    }
}

impl From<io::Error> for Failure {
    /// Whoever reads our output and wants no more of it has closed it: there is nothing to tell.
    fn from(error: io::Error) -> Failure {
        let closed = error.kind() == io::ErrorKind::BrokenPipe;
        Failure::new(if closed {
            String::new()
        } else {
            error.to_string()
        })
    }
}

pub type Done = Result<(), Failure>;

/// Puts a text on standard output.
pub fn say(text: &str) -> Done {
    io::stdout().lock().write_all(text.as_bytes())?;
    Ok(())
}

pub fn exit(command: &str, done: Done) -> ExitCode {
    match done {
        Ok(()) => ExitCode::SUCCESS,
        Err(failure) => {
            if !failure.what.is_empty() {
                eprintln!("desk {command}: {failure}");
            }
            if failure.usage {
                eprint!("{USAGE}");
            }
            ExitCode::from(if failure.usage { 2 } else { 1 })
        }
    }
}

/// Words of a command line: `--name value` pairs, flags, and the rest in order.
pub struct Words {
    plain: Vec<String>,
    options: Vec<(String, Option<String>)>,
}

impl Words {
    /// `valued` are the options that take a value, `flags` those that do not.
    pub fn of(words: &[String], valued: &[&str], flags: &[&str]) -> Result<Words, Failure> {
        let mut found = Words {
            plain: Vec::new(),
            options: Vec::new(),
        };
        let mut rest = words.iter();
        while let Some(word) = rest.next() {
            if valued.contains(&word.as_str()) {
                let value = rest
                    .next()
                    .ok_or_else(|| Failure::usage(format!("`{word}` wants a value")))?;
                found.options.push((word.clone(), Some(value.clone())));
            } else if flags.contains(&word.as_str()) || word == "--help" {
                found.options.push((word.clone(), None));
            } else if word.starts_with("--") {
                return Err(Failure::usage(format!("no option `{word}`")));
            } else {
                found.plain.push(word.clone());
            }
        }
        Ok(found)
    }

    pub fn has(&self, name: &str) -> bool {
        self.options.iter().any(|(option, _)| option == name)
    }

    pub fn value(&self, name: &str) -> Option<&str> {
        self.options
            .iter()
            .rev()
            .find(|(option, _)| option == name)
            .and_then(|(_, value)| value.as_deref())
    }

    /// The words that are no options, as many as there have to be.
    pub fn plain<const N: usize>(&self, names: [&str; N]) -> Result<[&str; N], Failure> {
        let words: Vec<&str> = self.plain.iter().map(String::as_str).collect();
        words
            .try_into()
            .map_err(|_| Failure::usage(format!("wants {}", names.join(" "))))
    }
}

/// Progress on a long input, shown where standard error is a terminal.
pub struct Progress {
    name: &'static str,
    total: u64,
    shown: Instant,
    live: bool,
}

impl Progress {
    pub fn start(name: &'static str, total: u64) -> Progress {
        Progress {
            name,
            total,
            shown: Instant::now(),
            live: io::stderr().is_terminal(),
        }
    }

    pub fn at(&mut self, done: u64) {
        if self.live && self.shown.elapsed() > Duration::from_millis(200) {
            let parts = if self.total == 0 {
                0
            } else {
                done * 100 / self.total
            };
            eprint!("\r{}: {parts} %", self.name);
            self.shown = Instant::now();
        }
    }
}

impl Drop for Progress {
    fn drop(&mut self) {
        if self.live {
            eprint!("\r\x1b[K");
        }
    }
}
