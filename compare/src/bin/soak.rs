//! Every comparison on growing seeds, on all processors, for as long as is asked. A difference is written to a file and ends it.

use compare::comparison::NUMBERS;
use compare::telling::{counts, missing, tell};
use compare::COMPARISONS;
use second::random::Random;
use std::io::IsTerminal;
use std::process::ExitCode;
use std::sync::atomic::{AtomicBool, AtomicU64, Ordering};
use std::time::{Duration, Instant, SystemTime, UNIX_EPOCH};

const USAGE: &str = "soak [MINUTES [SEED]]
    MINUTES  how long, 10 where it is not given; 0.5 is half a minute
    SEED     of the first inputs, from the clock where it is not given
";

/// Seeds that a thread takes at a time, for one comparison.
const BLOCK: u64 = 2_000;

const EACH: usize = COMPARISONS.len();

/// How often each number was met, for each comparison.
type Met = [[u64; NUMBERS]; EACH];

struct Soak {
    seed: u64,
    start: Instant,
    time: Duration,
    /// Blocks taken so far; the comparisons take turns.
    taken: AtomicU64,
    /// Inputs compared so far.
    done: AtomicU64,
    differ: AtomicBool,
}

impl Soak {
    fn over(&self) -> bool {
        self.differ.load(Ordering::Relaxed) || self.start.elapsed() >= self.time
    }

    /// Block after block until the time is over.
    fn work(&self) -> Met {
        let mut met = [[0; NUMBERS]; EACH];
        while !self.over() {
            let block = self.taken.fetch_add(1, Ordering::Relaxed);
            let (turn, which) = (block / EACH as u64, block as usize % EACH);
            let comparison = &COMPARISONS[which];
            let from = self.seed.wrapping_add(turn * BLOCK);
            let inputs = BLOCK / comparison.share;
            for seed in (0..inputs).map(|k| from.wrapping_add(k)) {
                match (comparison.one)(&mut Random::new(seed)) {
                    Ok(number) => met[which][usize::from(number)] += 1,
                    Err(difference) => {
                        tell(comparison.name, seed, &difference);
                        self.differ.store(true, Ordering::Relaxed);
                        return met;
                    }
                }
            }
            self.done.fetch_add(inputs, Ordering::Relaxed);
        }
        met
    }

    /// A line now and then on how far it is.
    fn progress(&self) {
        let terminal = std::io::stderr().is_terminal();
        let every = Duration::from_secs(if terminal { 2 } else { 60 });
        let mut next = every;
        while !self.over() {
            std::thread::sleep(Duration::from_millis(100));
            if self.start.elapsed() < next {
                continue;
            }
            next += every;
            let minutes = self.start.elapsed().as_secs_f64() / 60.0;
            let of = self.time.as_secs_f64() / 60.0;
            let done = self.done.load(Ordering::Relaxed);
            let line = format!("{minutes:.1} of {of:.1} minutes, {done} inputs equal");
            if terminal {
                eprint!("\r{line}  ");
            } else {
                eprintln!("{line}");
            }
        }
        if terminal {
            eprintln!();
        }
    }

    /// Runs on all processors; what each comparison met.
    fn run(&self) -> Met {
        let threads = std::thread::available_parallelism().map_or(1, usize::from);
        let mut met = [[0; NUMBERS]; EACH];
        std::thread::scope(|scope| {
            let workers: Vec<_> = (0..threads).map(|_| scope.spawn(|| self.work())).collect();
            self.progress();
            for worker in workers {
                let part = worker.join().expect("a comparison does not panic");
                for (sum, more) in met.iter_mut().flatten().zip(part.iter().flatten()) {
                    *sum += more;
                }
            }
        });
        met
    }
}

fn main() -> ExitCode {
    let Some(soak) = asked() else {
        eprint!("{USAGE}");
        return ExitCode::from(2);
    };
    println!("seed {}", soak.seed);
    let met = soak.run();
    let mut passed = !soak.differ.load(Ordering::Relaxed);
    let mut total = 0;
    for (comparison, met) in COMPARISONS.iter().zip(&met) {
        let inputs: u64 = met.iter().sum();
        total += inputs;
        let name = comparison.name;
        println!(
            "{name}: {inputs} inputs equal; number:count {}",
            counts(met)
        );
        if let Some(number) = missing(comparison, inputs, met) {
            println!("{name}: no input was answered {number}");
            passed = false;
        }
    }
    let minutes = soak.start.elapsed().as_secs_f64() / 60.0;
    let word = if passed { "passed" } else { "FAILED" };
    println!("soak {word}: {total} inputs equal in {minutes:.1} minutes");
    if passed {
        ExitCode::SUCCESS
    } else {
        ExitCode::FAILURE
    }
}

fn asked() -> Option<Soak> {
    let words: Vec<String> = std::env::args().skip(1).collect();
    let clock = SystemTime::now().duration_since(UNIX_EPOCH).ok()?;
    let (minutes, seed): (f64, u64) = match &words[..] {
        [] => (10.0, clock.as_nanos() as u64),
        [minutes] => (minutes.parse().ok()?, clock.as_nanos() as u64),
        [minutes, seed] => (minutes.parse().ok()?, seed.parse().ok()?),
        _ => return None,
    };
    Some(Soak {
        seed,
        start: Instant::now(),
        time: Duration::try_from_secs_f64(minutes * 60.0).ok()?,
        taken: AtomicU64::new(0),
        done: AtomicU64::new(0),
        differ: AtomicBool::new(false),
    })
}
