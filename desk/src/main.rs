//! For the people at the desk. Every answer, report, cause, spacing and
//! difference shown here comes from the proved programs `watch`, `why`,
//! `spacing` and `compare`, which are run; this program chooses what to ask and how to show it.

use desk::{case, cli, compare, events, export, import, log, text, timeline};
use std::process::ExitCode;

fn main() -> ExitCode {
    let words: Vec<String> = std::env::args().skip(1).collect();
    let (command, rest) = match words.split_first() {
        Some((command, rest)) => (command.as_str(), rest),
        None => ("--help", &[][..]),
    };
    let done = match command {
        "import" => import::run(rest),
        "export" => export::run(rest),
        "text" => text::run_text(rest),
        "assemble" => text::run_assemble(rest),
        "events" => events::run(rest),
        "timeline" => timeline::run(rest),
        "case" => case::run(rest),
        "compare" => compare::run(rest),
        "log" => log::run(rest),
        "--help" | "-h" | "help" => cli::say(cli::USAGE),
        other => Err(cli::Failure::usage(format!("no command `{other}`"))),
    };
    cli::exit(command, done)
}
