//! Speaks the call protocol over the original; `replay` reads document 01's replay lines instead.

use std::io::{stdin, stdout};
use std::process::ExitCode;

fn main() -> ExitCode {
    let arguments: Vec<String> = std::env::args().skip(1).collect();
    let words: Vec<&str> = arguments.iter().map(String::as_str).collect();
    let mut oracle = original::Oracle::new();
    let outcome = match words[..] {
        [] => protocol::serve(&mut oracle, stdin(), stdout(), false),
        ["--batch"] => protocol::serve(&mut oracle, stdin(), stdout(), true),
        ["replay"] => original::replay::replay(stdin(), stdout()),
        _ => {
            eprintln!("usage: oracle [--batch | replay]");
            return ExitCode::FAILURE;
        }
    };
    match outcome {
        Ok(()) => ExitCode::SUCCESS,
        Err(_) => ExitCode::FAILURE,
    }
}
