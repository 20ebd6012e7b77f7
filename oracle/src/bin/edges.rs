//! `edges`: plays a script of the edges program from standard input, as far as `script` plays it, and prints
//! what it must print.

use oracle::script::play;
use std::io::{read_to_string, stdin, stdout, Write};
use std::process::ExitCode;

fn main() -> ExitCode {
    let Ok(script) = read_to_string(stdin()) else { return ExitCode::FAILURE };
    match stdout().write_all(play(&script).output.as_bytes()) {
        Ok(()) => ExitCode::SUCCESS,
        Err(_) => ExitCode::FAILURE,
    }
}
