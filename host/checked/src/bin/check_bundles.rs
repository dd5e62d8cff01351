//! Checks the files that are named and prints a line for each. Exit status: 0 all passed, 1 one was refused, 2 one could not be read.
use std::env::args_os;
use std::fs;
use std::path::Path;
use std::process::ExitCode;

/// The line of one file, and its status.
fn judged(file: &Path) -> (String, u8) {
    match fs::read(file).map(|bundle| checked::check(&bundle)) {
        Ok(Ok(())) => ("passed".to_string(), 0),
        Ok(Err(refusal)) => (refusal.to_string(), 1),
        Err(error) => (format!("cannot be read: {error}"), 2),
    }
}

fn main() -> ExitCode {
    let mut worst = 0;
    for file in args_os().skip(1) {
        let file = Path::new(&file);
        let (line, status) = judged(file);
        println!("{}: {line}", file.display());
        worst = worst.max(status);
    }
    ExitCode::from(worst)
}
