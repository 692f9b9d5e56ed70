//! The words after `explore`.

use second::explore::{How, Rule, Times, EARLY, STATED};
use second::machine::*;

const USAGE: &str = "explore [--tables N] [--forks N] [--long-tables N] [--seconds S] [--small K]
        [--long K] [--seed X] [--processors M] [--early | --late] [an error] [a rule]
  --tables N     random accepted tables to explore (default 250000)
  --forks N      also random tables of a short job beside a long fork (default 0)
  --long-tables N  also random tables of one or two tasks with a D of up to four
                 times T (default 20000)
  --seconds S    stop after S seconds (default: no limit)
  --small K      also all very small tables with numbers up to K (default 6, 0 for none)
  --long K       also all very small tables of up to 8 processors with T up to K
                 and D up to four times T (default 4, 0 for none)
  --seed X       seed of the random tables (default 1)
  --processors M only tables with this m (1 to 8, random ones 1 to 3)
  --early        every step may end early: all times from 1 to its cost
  --late         every step may also take one tick more than its cost
errors that must be found:
  --nothing-remains  let a vertex go once nothing remains of its predecessors,
                 done or not: a vertex runs before one that leads to it
  --gaps-left    a job's end leaves its age place empty: a state that doesn't fit
  --newest-first age place 0 is the newest: a state that doesn't fit
  --equal-wait   the wait of a live task must equal T - D plus the newest's ticks
                 left: a state that doesn't fit
  --three-places a fourth job takes the oldest's place: a job is lost
and which tables are explored, by default those that document 01's verdict accepts:";

/// The rules by their words.
const RULES: [(&str, Rule, &str); 8] = [
    ("--say-yes", Rule::SayYes, "every table"),
    (
        "--margin-less",
        Rule::MarginLess,
        "margins down to -1 (a miss on one processor only)",
    ),
    (
        "--margin-less-m",
        Rule::MarginLessM,
        "margins down to -m (a miss on any number of processors)",
    ),
    ("--round-down", Rule::RoundDown, "D/T rounded down in due"),
    (
        "--sharp",
        Rule::Sharp,
        "those that the sharp verdict accepts",
    ),
    (
        "--sharp-own-tail",
        Rule::SharpOwnTail,
        "the same, a tail counting its vertex too",
    ),
    (
        "--sharp-first",
        Rule::SharpFirst,
        "the same, one job of each task (h = 0) alone",
    ),
    (
        "--sharp-no-22",
        Rule::SharpNo22,
        "the same without 22 (a miss on one processor only)",
    ),
];

pub struct Options {
    pub tables: u64,
    pub forks: u64,
    pub long_tables: u64,
    pub seconds: Option<u64>,
    pub small: u32,
    pub long: u32,
    pub seed: u64,
    pub processors: Option<u8>,
    pub rule: Rule,
    pub how: How,
}

pub fn options() -> Result<Options, String> {
    let mut options = Options {
        tables: 250_000,
        forks: 0,
        long_tables: 20_000,
        seconds: None,
        small: 6,
        long: 4,
        seed: 1,
        processors: None,
        rule: Rule::Verdict,
        how: STATED,
    };
    let mut words = std::env::args().skip(1);
    while let Some(word) = words.next() {
        let mut number = || {
            let given = words.next().and_then(|text| text.parse::<u64>().ok());
            given.ok_or(format!("{word} needs a number"))
        };
        match word.as_str() {
            "--tables" => options.tables = number()?,
            "--forks" => options.forks = number()?,
            "--long-tables" => options.long_tables = number()?,
            "--seconds" => options.seconds = Some(number()?),
            "--small" => options.small = number()?.min(6) as u32,
            "--long" => options.long = number()?.min(4) as u32,
            "--seed" => options.seed = number()?,
            "--processors" => options.processors = Some(number()?.clamp(1, 8) as u8),
            _ if change(&word, &mut options.how).is_some() => {}
            _ => options.rule = rule(&word).ok_or(format!("{word} is unknown"))?,
        }
    }
    Ok(options)
}

/// Changes how a run goes as a word says; None for any other word.
fn change(word: &str, how: &mut How) -> Option<()> {
    match word {
        "--early" => (how.times, how.fits) = (Times::Early, EARLY.fits),
        "--late" => (how.times, how.fits) = (Times::Late, EARLY.fits),
        "--nothing-remains" => how.held = held_by_remaining,
        "--gaps-left" => how.keeping = GAPS_LEFT,
        "--newest-first" => how.keeping = NEWEST_FIRST,
        "--three-places" => how.keeping = THREE_PLACES,
        "--equal-wait" => how.fits = fits_with_equal_wait,
        _ => return None,
    }
    Some(())
}

fn rule(word: &str) -> Option<Rule> {
    let named = RULES.iter().find(|(name, _, _)| *name == word);
    named.map(|(_, rule, _)| *rule)
}

pub fn usage() -> String {
    let rules = RULES.map(|(word, _, says)| format!("\n  {word:<17}{says}"));
    USAGE.to_string() + &rules.concat()
}
