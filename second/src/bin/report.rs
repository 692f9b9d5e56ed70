//! Prints the report on standard input as the report program does, or with
//! --sharp the sharp one.

use std::io::{Read, Write};
use std::process::ExitCode;

fn main() -> ExitCode {
    let words: Vec<String> = std::env::args().skip(1).collect();
    let words: Vec<&str> = words.iter().map(String::as_str).collect();
    let report = match words[..] {
        [] => second::report,
        ["--sharp"] => second::sharp_report,
        _ => {
            eprintln!("report [--sharp] < FILE");
            return ExitCode::from(2);
        }
    };
    let mut bytes = Vec::new();
    let read = std::io::stdin().read_to_end(&mut bytes);
    match read.and_then(|_| std::io::stdout().write_all(&report(&bytes))) {
        Ok(()) => ExitCode::SUCCESS,
        Err(error) => {
            eprintln!("report: {error}");
            ExitCode::FAILURE
        }
    }
}
