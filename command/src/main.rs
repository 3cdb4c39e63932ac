//! `sefgrunn`: stored documents from a shell. `sefgrunn --help` says what each command does; its text is
//! a stored document too, built and printed by the library.
//!
//! Exit status 0 where all was accepted, 1 where something was refused, 2 for wrong usage and for input
//! or output that failed. Messages go to standard error, and after a refusal nothing goes to standard
//! output.

use std::ffi::OsString;
use std::process::ExitCode;

mod arguments;
mod commands;
mod files;
mod help;
mod records;
mod terminal;

/// How a command ended; the worst of several counts.
#[derive(Debug, Clone, Copy, PartialEq, Eq, PartialOrd, Ord)]
enum Status {
    Accepted = 0,
    Refused = 1,
    Failed = 2,
}

/// What a command answers: a status, or a message for standard error with a status.
type Outcome = Result<Status, Fault>;

/// A message for standard error, and the status that goes with it.
struct Fault {
    status: Status,
    message: String,
}

impl Fault {
    fn refused(message: impl Into<String>) -> Self {
        Fault { status: Status::Refused, message: message.into() }
    }

    fn failed(message: impl Into<String>) -> Self {
        Fault { status: Status::Failed, message: message.into() }
    }
}

/// A message on standard error. Where that fails there is nobody left to tell.
fn say(message: &str) {
    use std::io::Write;
    let _ = writeln!(std::io::stderr(), "sefgrunn: {message}");
}

fn main() -> ExitCode {
    let words: Vec<OsString> = std::env::args_os().skip(1).collect();
    let status = commands::run(&words).unwrap_or_else(|fault| {
        say(&fault.message);
        fault.status
    });
    ExitCode::from(status as u8)
}
