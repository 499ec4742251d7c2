//! Speaks the call protocol over the static library.

use std::io::{stdin, stdout};
use std::process::ExitCode;

fn main() -> ExitCode {
    let arguments: Vec<String> = std::env::args().skip(1).collect();
    let words: Vec<&str> = arguments.iter().map(String::as_str).collect();
    let batch = match words[..] {
        [] => false,
        ["--batch"] => true,
        _ => {
            eprintln!("usage: calls [--batch]");
            return ExitCode::FAILURE;
        }
    };
    match protocol::serve(&mut port::Port::new(), stdin(), stdout(), batch) {
        Ok(()) => ExitCode::SUCCESS,
        Err(_) => ExitCode::FAILURE,
    }
}
