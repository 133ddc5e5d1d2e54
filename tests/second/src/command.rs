//! The frame of both commands.

use std::env;
use std::process::ExitCode;

/// Hands the arguments to `run`; when they are not as the usage says, prints that and exits with 2.
pub fn command(usage: &str, run: fn(&[&str]) -> Option<ExitCode>) -> ExitCode {
    let arguments: Vec<String> = env::args().skip(1).collect();
    let arguments: Vec<&str> = arguments.iter().map(String::as_str).collect();
    run(&arguments).unwrap_or_else(|| {
        eprintln!("{usage}");
        ExitCode::from(2)
    })
}
