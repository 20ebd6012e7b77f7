//! The command: offers from standard input, answers and the report to standard output.

use std::fs::File;
use std::io::{stdin, stdout, Result};
use std::os::fd::AsFd;
use std::process::ExitCode;

fn main() -> ExitCode {
    match run() {
        Ok(()) => ExitCode::SUCCESS,
        Err(error) => {
            eprintln!("oracle: {error}");
            ExitCode::FAILURE
        }
    }
}

fn run() -> Result<()> {
    // Plain files, so that only the command's own large buffers stand between it and the system.
    let input = File::from(stdin().as_fd().try_clone_to_owned()?);
    let output = File::from(stdout().as_fd().try_clone_to_owned()?);
    oracle::command::run(input, output)
}
