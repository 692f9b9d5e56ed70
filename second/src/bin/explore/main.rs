//! Explores tiny tables exhaustively and looks for a miss.

mod options;
mod tour;

use options::{options, usage};
use std::process::ExitCode;
use tour::Tour;

fn main() -> ExitCode {
    let options = match options() {
        Ok(options) => options,
        Err(text) => {
            eprintln!("{text}\n{}", usage());
            return ExitCode::from(2);
        }
    };
    let (seed, rule, times) = (options.seed, options.rule, options.how.times);
    println!("seed {seed}, rule {rule:?}, times {times:?}");
    let mut tour = Tour::new(&options);
    let good = tour.very_small(options.small)
        && tour.very_long(options.long)
        && tour.random(options.seed, options.tables)
        && tour.forks(options.seed, options.forks)
        && tour.long(options.seed, options.long_tables);
    if !good {
        return ExitCode::FAILURE;
    }
    tour.sum_up();
    ExitCode::SUCCESS
}
