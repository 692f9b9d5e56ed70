//! What a run says of a comparison, and where it keeps a difference.

use crate::comparison::{Comparison, Difference, NUMBERS};
use std::path::Path;

/// From this many inputs on, each number that must be met has to be met.
const LONG: u64 = 100_000;

/// How often each number was met.
pub fn counts(met: &[u64; NUMBERS]) -> String {
    let each: Vec<String> = (0..NUMBERS)
        .filter(|number| met[*number] > 0)
        .map(|number| format!("{number}:{}", met[number]))
        .collect();
    each.join(" ")
}

/// The first number that a run of so many inputs had to meet and did not.
pub fn missing(comparison: &Comparison, inputs: u64, met: &[u64; NUMBERS]) -> Option<u8> {
    let not_met = |number: &&u8| met[usize::from(**number)] == 0;
    let first = comparison.must_meet.iter().find(not_met);
    first.copied().filter(|_| inputs >= LONG)
}

/// Says where the sides differ, and keeps the input and both answers in a file.
pub fn tell(name: &str, seed: u64, difference: &Difference) {
    let again = format!("compare --only {name} --seed {seed} --inputs 1");
    let text = format!(
        "{name}, seed {seed}; again by: {again}\ninput {}\nours {}\ntheirs {}\n",
        difference.input, difference.ours, difference.theirs
    );
    let file = format!("target/compare/{name}-{seed}.txt");
    let kept = match keep(&file, &text) {
        Ok(()) => file,
        Err(error) => format!("{file}: {error}\n{text}"),
    };
    eprintln!("{name}: the sides differ on seed {seed}: {kept}");
}

/// Writes a file of the repository, whatever the folder that this runs in.
fn keep(file: &str, text: &str) -> std::io::Result<()> {
    let whole = Path::new(env!("CARGO_MANIFEST_DIR")).join("..").join(file);
    std::fs::create_dir_all(whole.parent().unwrap_or(Path::new(".")))?;
    std::fs::write(whole, text)
}
