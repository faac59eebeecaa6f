//! The command line of Jadmirus.
mod arguments;
mod commands;
mod help;
mod input;
mod output;
mod progress;

use arguments::Request;
use commands::Status;
use std::fmt;
use std::process::ExitCode;

/// Why nothing could be told of an input: a message for standard error.
pub struct Failure(pub String);

impl Failure {
    /// A failure that has to do with a file.
    fn of(name: &str, why: impl fmt::Display) -> Failure {
        Failure(format!("{name}: {why}"))
    }
}

fn main() -> ExitCode {
    match run() {
        Ok(Status::Accepted) => ExitCode::SUCCESS,
        Ok(Status::Refused) => ExitCode::from(1),
        Err(Failure(message)) => {
            eprintln!("jadmirus: {message}");
            ExitCode::from(2)
        }
    }
}

fn run() -> Result<Status, Failure> {
    match arguments::request(std::env::args_os().skip(1))? {
        Request::Print(text) => {
            output::to_stdout(|out| write!(out, "{text}"))?;
            Ok(Status::Accepted)
        }
        Request::Run(arguments) => commands::run(&arguments),
    }
}
