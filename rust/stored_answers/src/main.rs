//! Makes the stored calls, one a line, and the oracle's answer to each, in the form of docs/STORED.md.

mod assembler;
mod fragments;
mod layout;
mod numbers;
mod proxy;
mod recorder;
mod sets;

use std::path::Path;

use recorder::Recorder;

fn main() -> std::io::Result<()> {
    let Some(folder) = std::env::args().nth(1) else {
        eprintln!("usage: stored_answers FOLDER, which gets the files stdin and stdout");
        std::process::exit(1);
    };
    let mut recorder = Recorder::new();
    numbers::record(&mut recorder);
    sets::record(&mut recorder);
    proxy::record(&mut recorder);
    fragments::record(&mut recorder);
    assembler::record(&mut recorder);
    let folder = Path::new(&folder);
    std::fs::write(folder.join("stdin"), recorder.calls())?;
    std::fs::write(folder.join("stdout"), recorder.answers())?;
    println!(
        "{} calls; {} left out, at which the original panics",
        recorder.many(),
        recorder.left_out()
    );
    Ok(())
}
