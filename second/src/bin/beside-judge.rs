//! Holds the judge program against this one on fresh random inputs: journals
//! many times as long as its buffer, legal, damaged in a row or cut short; and
//! some short inputs cut at every place.

use second::beside::{ended, same, wanted};
use second::judge::judge_line;
use second::random::*;
use std::collections::BTreeMap;
use std::process::ExitCode;
use std::time::Instant;

const USAGE: &str = "beside-judge PROGRAM [--seed X] [--inputs N]
    X   seed of the first input, from the clock where it is not given; the input after it has X + 1
    N   inputs, 600 where it is not given; one in 100 is short, and cut at every place";

/// Rows of a long journal, and of a short one.
const LONG: usize = 6_000;
const SHORT: usize = 12;
/// One input in so many is short and cut short at every place.
const CUT: u64 = 100;

fn main() -> ExitCode {
    let words: Vec<String> = std::env::args().skip(1).collect();
    let done = wanted(&words, 600).map(|(program, seed, inputs)| all(program, seed, inputs));
    ended(done, USAGE)
}

/// Every input; what was met, or where the sides differ.
fn all(program: &str, seed: u64, inputs: u64) -> Result<String, String> {
    let start = Instant::now();
    println!("seed {seed}");
    let mut met = BTreeMap::new();
    let (mut count, mut bytes) = (0, 0);
    for k in 0..inputs {
        let cut = k % CUT == 0;
        let rows = if cut { SHORT } else { LONG };
        let input = judge_input(&mut Random::new(seed.wrapping_add(k)), rows);
        for length in if cut { 0 } else { input.len() }..=input.len() {
            let line = judge_line(&input[..length]);
            same(program, &input[..length], line.as_bytes())
                .map_err(|said| format!("seed {}: {said}", seed.wrapping_add(k)))?;
            *met.entry(kind(&line)).or_insert(0) += 1;
            count += 1;
            bytes += length;
        }
    }
    let each: Vec<String> = met.iter().map(|(kind, n)| format!("{kind}:{n}")).collect();
    let seconds = start.elapsed().as_secs_f64();
    let each = each.join(" ");
    Ok(format!(
        "judge: {count} inputs of {bytes} bytes equal in {seconds:.1} s; lines {each}"
    ))
}

/// What a line says: legal, missed, or its first word and number.
fn kind(line: &str) -> String {
    let words: Vec<&str> = line.split_whitespace().collect();
    match words[0] {
        "legal" if line.contains("missed") => String::from("missed"),
        "legal" => String::from("legal"),
        word => format!("{word}-{}", words[1]),
    }
}
