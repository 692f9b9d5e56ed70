//! A program beside this one: its output for an input.

use std::io::Write;
use std::process::{Command, Stdio};

/// The program's output. It may end before it has read all of its input.
pub fn run_program(program: &str, input: &[u8]) -> std::io::Result<Vec<u8>> {
    let mut child = Command::new(program)
        .stdin(Stdio::piped())
        .stdout(Stdio::piped())
        .spawn()?;
    let mut pipe = child.stdin.take().expect("it was asked for");
    let bytes = input.to_vec();
    let writer = std::thread::spawn(move || {
        let _ = pipe.write_all(&bytes);
    });
    let out = child.wait_with_output()?;
    let _ = writer.join();
    if !out.status.success() {
        return Err(std::io::Error::other(format!(
            "it ended with {}",
            out.status
        )));
    }
    Ok(out.stdout)
}

/// Equal outputs, or how they differ.
pub fn same(program: &str, input: &[u8], theirs: &[u8]) -> Result<(), String> {
    let ours = run_program(program, input).map_err(|e| format!("{program}: {e}"))?;
    if ours == theirs {
        return Ok(());
    }
    let hex: Vec<String> = input.iter().map(|b| format!("{b:02X}")).collect();
    Err(format!(
        "the sides differ\ninput {}\nours\n{}theirs\n{}",
        hex.join(" "),
        String::from_utf8_lossy(&ours),
        String::from_utf8_lossy(theirs)
    ))
}

/// The words of a comparison: PROGRAM [--seed X] [--inputs N].
pub fn wanted(words: &[String], inputs: u64) -> Option<(&str, u64, u64)> {
    let (program, rest) = words.split_first()?;
    let clock = std::time::SystemTime::now()
        .duration_since(std::time::UNIX_EPOCH)
        .ok()?;
    let (mut seed, mut inputs) = (clock.as_nanos() as u64, inputs);
    for pair in rest.chunks(2) {
        let value = pair.get(1)?.parse().ok()?;
        match pair[0].as_str() {
            "--seed" => seed = value,
            "--inputs" => inputs = value,
            _ => return None,
        }
    }
    Some((program, seed, inputs))
}

/// Ends a comparison: what it met, how the sides differ, or how it is called.
pub fn ended(done: Option<Result<String, String>>, usage: &str) -> std::process::ExitCode {
    match done {
        None => {
            eprintln!("{usage}");
            std::process::ExitCode::from(2)
        }
        Some(Ok(said)) => {
            println!("{said}");
            std::process::ExitCode::SUCCESS
        }
        Some(Err(said)) => {
            eprintln!("{said}");
            std::process::ExitCode::FAILURE
        }
    }
}
