//! `gen SEED KIND [shuffled]`: one random session to standard output. `gen kinds`: the kinds.

use oracle::generator::{session, KINDS};
use std::io::{stdout, Write};
use std::process::ExitCode;

fn main() -> ExitCode {
    let args: Vec<String> = std::env::args().skip(1).collect();
    let args: Vec<&str> = args.iter().map(String::as_str).collect();
    if args == ["kinds"] {
        println!("{}", KINDS.join(" "));
        return ExitCode::SUCCESS;
    }
    let shuffled = args.get(2) == Some(&"shuffled");
    let right = args.len() == if shuffled { 3 } else { 2 } && KINDS.contains(&args[1]);
    let (true, Some(Ok(seed))) = (right, args.first().map(|s| s.parse::<u64>())) else {
        eprintln!("usage: gen SEED KIND [shuffled], or gen kinds");
        return ExitCode::from(2);
    };
    match stdout().write_all(&session(seed, args[1], shuffled)) {
        Ok(()) => ExitCode::SUCCESS,
        Err(_) => ExitCode::FAILURE,
    }
}
