//! Runs every comparison on fresh random inputs. The seed is printed; a difference is written to a file and ends the run.

use compare::comparison::{Comparison, NUMBERS};
use compare::telling::{counts, missing, tell};
use compare::COMPARISONS;
use second::random::Random;
use std::process::ExitCode;
use std::time::{Instant, SystemTime, UNIX_EPOCH};

const USAGE: &str = "compare [--seed X] [--inputs N] [--only NAME]
    X   seed of the first input, from the clock where it is not given; the input after it has X + 1
    N   inputs of a comparison, 200,000 where it is not given; openings and sharp verdicts get a half of them, reports and journals a
        quarter, runs an eighth
";

struct Wanted {
    seed: u64,
    inputs: u64,
    only: Option<String>,
}

impl Wanted {
    fn named(&self, comparison: &Comparison) -> bool {
        let only = self.only.as_deref();
        only.is_none_or(|name| name == comparison.name)
    }
}

fn main() -> ExitCode {
    let Some(wanted) = words() else {
        eprint!("{USAGE}");
        return ExitCode::from(2);
    };
    println!("seed {}", wanted.seed);
    let mut passed = true;
    for comparison in COMPARISONS.iter().filter(|one| wanted.named(one)) {
        passed &= run(comparison, &wanted);
    }
    if passed {
        ExitCode::SUCCESS
    } else {
        ExitCode::FAILURE
    }
}

fn words() -> Option<Wanted> {
    let clock = SystemTime::now().duration_since(UNIX_EPOCH).ok()?;
    let mut wanted = Wanted {
        seed: clock.as_nanos() as u64,
        inputs: 200_000,
        only: None,
    };
    let mut words = std::env::args().skip(1);
    while let Some(word) = words.next() {
        let value = words.next()?;
        match word.as_str() {
            "--seed" => wanted.seed = value.parse().ok()?,
            "--inputs" => wanted.inputs = value.parse().ok()?,
            "--only" => wanted.only = Some(value),
            _ => return None,
        }
    }
    COMPARISONS
        .iter()
        .any(|one| wanted.named(one))
        .then_some(wanted)
}

/// One comparison over all its inputs; false where the sides differ or a number was not met.
fn run(comparison: &Comparison, wanted: &Wanted) -> bool {
    let start = Instant::now();
    let mut met = [0u64; NUMBERS];
    let inputs = wanted.inputs.div_ceil(comparison.share);
    for k in 0..inputs {
        let seed = wanted.seed.wrapping_add(k);
        match (comparison.one)(&mut Random::new(seed)) {
            Ok(number) => met[usize::from(number)] += 1,
            Err(difference) => {
                tell(comparison.name, seed, &difference);
                return false;
            }
        }
    }
    println!(
        "{}: {} inputs equal in {:.1} s; number:count {}",
        comparison.name,
        inputs,
        start.elapsed().as_secs_f64(),
        counts(&met)
    );
    match missing(comparison, wanted.inputs, &met) {
        Some(number) => {
            eprintln!("{}: no input was answered {number}", comparison.name);
            false
        }
        None => true,
    }
}
