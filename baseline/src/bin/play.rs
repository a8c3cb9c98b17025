//! Plays a description from a file or from standard input.

use std::io::{Read, Write};
use std::process::ExitCode;

fn main() -> ExitCode {
    match description().map(|bytes| baseline::play(&bytes)) {
        Ok(Ok(result)) => match std::io::stdout().write_all(&result) {
            Ok(()) => ExitCode::SUCCESS,
            Err(_) => ExitCode::FAILURE,
        },
        Ok(Err(error)) => complain(&format!("bad description: {error:?}")),
        Err(error) => complain(&error.to_string()),
    }
}

fn description() -> std::io::Result<Vec<u8>> {
    match std::env::args().nth(1) {
        Some(path) => std::fs::read(path),
        None => {
            let mut bytes = Vec::new();
            std::io::stdin().read_to_end(&mut bytes)?;
            Ok(bytes)
        }
    }
}

fn complain(text: &str) -> ExitCode {
    eprintln!("play: {text}");
    ExitCode::FAILURE
}
