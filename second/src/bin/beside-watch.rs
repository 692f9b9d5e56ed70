//! Holds the watch program against this one on fresh random inputs: random
//! tables and releases, and some inputs cut short at every place.

use second::beside::{ended, same, wanted};
use second::random::*;
use second::watch;
use std::collections::BTreeMap;
use std::process::ExitCode;
use std::time::Instant;

const USAGE: &str = "beside-watch PROGRAM [--seed X] [--inputs N]
    X   seed of the first input, from the clock where it is not given; the input after it has X + 1
    N   inputs, 1,500 where it is not given; one in 300 is cut short at every place besides";

/// Ticks of a run.
const MOST: usize = 60;
/// One input in so many is cut short at every place, if it is short.
const CUT: u64 = 300;

fn main() -> ExitCode {
    let words: Vec<String> = std::env::args().skip(1).collect();
    let done = wanted(&words, 1_500).map(|(program, seed, inputs)| all(program, seed, inputs));
    ended(done, USAGE)
}

/// Every input; what was met, or where the sides differ.
fn all(program: &str, seed: u64, inputs: u64) -> Result<String, String> {
    let start = Instant::now();
    println!("seed {seed}");
    let mut met = BTreeMap::new();
    let mut count = 0;
    for k in 0..inputs {
        let input = run_input(&mut Random::new(seed.wrapping_add(k)), MOST);
        let cut = k % CUT == 0 && input.len() < 200;
        for length in if cut { 0 } else { input.len() }..=input.len() {
            one(program, &input[..length], &mut met)
                .map_err(|said| format!("seed {}: {said}", seed.wrapping_add(k)))?;
            count += 1;
        }
    }
    let each: Vec<String> = met.iter().map(|(kind, n)| format!("{kind}:{n}")).collect();
    let seconds = start.elapsed().as_secs_f64();
    let each = each.join(" ");
    Ok(format!(
        "watch: {count} inputs equal in {seconds:.1} s; lines {each}"
    ))
}

/// One input on both sides.
fn one(program: &str, input: &[u8], met: &mut BTreeMap<String, u64>) -> Result<(), String> {
    let theirs = watch(input);
    same(program, input, &theirs)?;
    for line in String::from_utf8_lossy(&theirs).lines() {
        *met.entry(kind(line)).or_insert(0) += 1;
    }
    Ok(())
}

/// What a line says: open, ran, miss, or refuse and its number.
fn kind(line: &str) -> String {
    let mut words = line.split(' ').skip_while(|word| *word != "refuse");
    match (words.next(), words.next()) {
        (Some(_), Some(number)) => format!("refuse-{number}"),
        _ if line.starts_with("open") => String::from("open"),
        _ if line.contains("miss") => String::from("miss"),
        _ => String::from("ran"),
    }
}
