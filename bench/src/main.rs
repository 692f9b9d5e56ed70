//! Reads, writes, verdicts (both), reports, openings, ticks and rows of journals a second: ours beside the second program's and beside
//! plain C's. The same inputs in one run, the sides in turn, so that other load falls on all. Buffers are not cleared in between. A
//! ratio is ours over theirs: above 1, ours is the quicker.

use bench::ticking::{flat, Load, Runs};
use bench::{accepted, deep, plain, plain_check, refused, sizes, varied, Size};
use compare::face;
use second::machine::Phase;
use second::random::{busy_rows, file, Random};
use second::table::LARGEST;
use second::{State, Table};
use std::hint::black_box;
use std::time::Instant;

const INPUTS: usize = 64;
/// Turns of each side; a turn of the slowest takes about `TURN` seconds or once through all inputs, so that most turns of every side
/// are not interrupted.
const TURNS: usize = 301;
const TURN: f64 = 0.0015;

/// What a side does with input k.
type Work<'a> = Box<dyn FnMut(usize) + 'a>;

fn main() {
    let seed = 1;
    let sizes = sizes(&mut Random::new(seed), INPUTS);
    let inputs: Vec<Table> = sizes.iter().flat_map(|s| s.tables.clone()).collect();
    let good: Vec<Table> = sizes.iter().flat_map(good_tables).collect();
    let varied: Vec<Table> = sizes.iter().flat_map(varied_tables).collect();
    let deep: Vec<Table> = sizes.iter().flat_map(|s| deep_runs(s).0).collect();
    plain_check::check(&[inputs, good, varied, deep].concat());
    println!("a second, the best of {TURNS} turns; ours over each, and the median of that over the turns");
    beside(
        "",
        ["ours", "second", "plain C", "ours/second", "ours/plain C"],
    );
    for size in &sizes {
        reading(size);
        writing(size);
        judging(size);
        judging_sharply(size);
        reporting(size);
        opening(size);
        for load in [Load::One, Load::All] {
            let name = format!("{}, {}", size.name, load.name());
            ticking(&name, load, &good_tables(size), &opened());
        }
        let (tables, states) = deep_runs(size);
        let name = format!("{}, all 4 deep", size.name);
        ticking(&name, Load::All, &tables, &states);
        journals(size);
    }
    beside(
        "ticks by value",
        [
            "ours",
            "in place",
            "plain C",
            "ours/in place",
            "ours/plain C",
        ],
    );
    for size in &sizes {
        by_value(size);
    }
    beside_the_verdict("the quick answer");
    for size in &sizes {
        answering(size);
    }
    beside_the_verdict("the sharp verdict");
    for size in &sizes {
        sharply(size);
    }
}

/// The heading of lines that have our own verdict in place of plain C.
fn beside_the_verdict(what: &str) {
    beside(
        what,
        ["ours", "second", "verdict", "ours/second", "ours/verdict"],
    );
}

/// The heading of lines, and of each column.
fn beside(what: &str, [a, b, c, d, e]: [&str; 5]) {
    println!("{what:<58}{a:>10}{b:>10}{c:>10}{d:>16}{e:>16}");
}

fn reading(size: &Size) {
    let files: Vec<Vec<u8>> = size.tables.iter().map(file).collect();
    let mut table = plain::no_table();
    let ours = |k: usize| {
        black_box(face::read(black_box(&files[k])));
    };
    let second = |k: usize| {
        black_box(second::read(black_box(&files[k])));
    };
    let plain = |k: usize| {
        black_box(plain::read(black_box(&files[k]), black_box(&mut table)));
    };
    let sides: [Work; 3] = [Box::new(ours), Box::new(second), Box::new(plain)];
    measure(&format!("read    {}", size.name), sides);
}

fn writing(size: &Size) {
    let tables: Vec<face::Table> = size.tables.iter().map(face::Table::from).collect();
    let (mut a, mut b, mut c) = ([0u8; LARGEST], [0u8; LARGEST], [0u8; LARGEST]);
    let ours = |k: usize| {
        black_box(face::write(*black_box(&tables[k]), black_box(&mut a)));
    };
    let second = |k: usize| {
        let into = black_box(&mut b);
        black_box(second::write(black_box(&size.tables[k]), into));
    };
    let plain = |k: usize| {
        black_box(plain::write(black_box(&tables[k]), black_box(&mut c)));
    };
    let sides: [Work; 3] = [Box::new(ours), Box::new(second), Box::new(plain)];
    measure(&format!("write   {}", size.name), sides);
}

/// Tables that the verdict accepts.
fn good_tables(size: &Size) -> Vec<Table> {
    let r = &mut Random::new(2);
    let tables = size.tables.iter().map(|table| accepted(r, table));
    tables.collect()
}

/// Tables with many jobs of a task within another's deadline, which both verdicts accept.
fn varied_tables(size: &Size) -> Vec<Table> {
    let r = &mut Random::new(4);
    let tables = size.tables.iter().map(|table| varied(r, table));
    tables.collect()
}

/// Tables with D four times T, and states of them with four live jobs of each task.
fn deep_runs(size: &Size) -> (Vec<Table>, Vec<State>) {
    let r = &mut Random::new(5);
    let runs = size.tables.iter().map(|table| deep(r, table));
    runs.unzip()
}

fn judging(size: &Size) {
    let sides = (
        face::verdict as _,
        second::verdict as _,
        plain::verdict as _,
    );
    answers(&format!("verdict {}", size.name), &good_tables(size), sides);
}

fn judging_sharply(size: &Size) {
    let sides = (face::sharp as _, second::sharp as _, plain::sharp as _);
    answers(
        &format!("sharp   {}", size.name),
        &varied_tables(size),
        sides,
    );
}

/// A function from a file to an answer.
type Answer<T> = fn(&[u8]) -> T;

/// Answers to the files of these tables.
fn answers<A, B, C>(name: &str, tables: &[Table], sides: (Answer<A>, Answer<B>, Answer<C>)) {
    let files: Vec<Vec<u8>> = tables.iter().map(file).collect();
    let ours = |k: usize| {
        black_box(sides.0(black_box(&files[k])));
    };
    let second = |k: usize| {
        black_box(sides.1(black_box(&files[k])));
    };
    let third = |k: usize| {
        black_box(sides.2(black_box(&files[k])));
    };
    let sides: [Work; 3] = [Box::new(ours), Box::new(second), Box::new(third)];
    measure(name, sides);
}

/// The quick answer beside the second program's and beside our own verdict: it is sooner where a task fails, and no later where none
/// does.
fn answering(size: &Size) {
    let good = good_tables(size);
    let line = |words: &str, tables: &[Table]| {
        let sides = (face::quick as _, second::quick as _, face::verdict as _);
        answers(&format!("{}; {words}", size.name), tables, sides);
    };
    line("accepted", &good);
    for (which, words) in [(0, "the first fails"), (usize::MAX, "the last fails")] {
        let bad = good.iter().map(|table| refused(*table, which));
        line(words, &bad.collect::<Vec<_>>());
    }
}

/// The sharp verdict beside the second program's and beside our own old one: what the sharper count costs.
fn sharply(size: &Size) {
    for (words, tables) in [
        ("long periods", good_tables(size)),
        ("periods of any size", varied_tables(size)),
    ] {
        let sides = (face::sharp as _, second::sharp as _, face::verdict as _);
        answers(&format!("{}; {words}", size.name), &tables, sides);
    }
}

/// The second program makes its text on the heap.
fn reporting(size: &Size) {
    let files: Vec<Vec<u8>> = good_tables(size).iter().map(file).collect();
    let (mut a, mut c) = ([0u8; face::MAX_REPORT], [0u8; face::MAX_REPORT]);
    let ours = |k: usize| {
        black_box(face::report(black_box(&files[k]), black_box(&mut a)));
    };
    let second = |k: usize| {
        black_box(second::report(black_box(&files[k])));
    };
    let plain = |k: usize| {
        black_box(plain::report(black_box(&files[k]), black_box(&mut c)));
    };
    let sides: [Work; 3] = [Box::new(ours), Box::new(second), Box::new(plain)];
    measure(&format!("report  {}", size.name), sides);
}

fn opening(size: &Size) {
    let files: Vec<Vec<u8>> = good_tables(size).iter().map(file).collect();
    let mut state = face::open(&files[0], 0).state;
    let ours = |k: usize| {
        black_box(face::open(black_box(&files[k]), 0));
    };
    let second = |k: usize| {
        black_box(second::open(black_box(&files[k]), 0));
    };
    let plain = |k: usize| {
        black_box(plain::open(black_box(&files[k]), 0, black_box(&mut state)));
    };
    let sides: [Work; 3] = [Box::new(ours), Box::new(second), Box::new(plain)];
    measure(&format!("open    {}", size.name), sides);
}

/// The states of all inputs before the first tick.
fn opened() -> Vec<State> {
    vec![State::zeros(0, Phase::Running); INPUTS]
}

/// The same runs on all sides, each moving its state on where it stands. The second program keeps the machine's own state, so that it
/// has nothing to set out as numbers.
fn ticking(name: &str, load: Load, tables: &[Table], states: &[State]) {
    let files: Vec<Vec<u8>> = tables.iter().map(file).collect();
    let mut ours = Runs::new(&files, tables, load, flat(states));
    let mut second = Runs::new(&files, tables, load, states.to_vec());
    let mut plain = Runs::new(&files, tables, load, flat(states));
    let sides: [Work; 3] = [
        Box::new(|k| ours.tick_in_place(black_box(k))),
        Box::new(|k| second.tick(black_box(k))),
        Box::new(|k| plain.tick_plain(black_box(k))),
    ];
    measure(&format!("tick    {name}"), sides);
    assert!(second.agree(&ours), "the runs differ");
    assert!(second.agree(&plain), "the runs in plain C differ");
}

/// Ticks that take the state and give it back, beside those in place: what the copies of it cost.
fn by_value(size: &Size) {
    let tables = good_tables(size);
    let files: Vec<Vec<u8>> = tables.iter().map(file).collect();
    let runs = || Runs::new(&files, &tables, Load::All, flat(&opened()));
    let (mut value, mut place, mut plain) = (runs(), runs(), runs());
    let sides: [Work; 3] = [
        Box::new(|k| value.tick_by_value(black_box(k))),
        Box::new(|k| place.tick_in_place(black_box(k))),
        Box::new(|k| plain.tick_plain(black_box(k))),
    ];
    measure(&format!("{}, all tasks", size.name), sides);
}

/// Rows of a journal that is measured.
const ROWS: usize = 400;

/// Legal journals, every task released whenever it may be and ties broken at random; counted by their rows. Plain C has no judge.
fn journals(size: &Size) {
    let r = &mut Random::new(3);
    let made = |table: &Table| (file(table), busy_rows(r, table, ROWS).concat());
    let inputs: Vec<(Vec<u8>, Vec<u8>)> = good_tables(size).iter().map(made).collect();
    for (file, journal) in &inputs {
        let found = second::judge(file, journal);
        assert_eq!((found.number, found.rows), (0, ROWS));
    }
    let ours = |k: usize| {
        let (file, journal) = black_box(&inputs[k]);
        black_box(face::judge(file, journal));
    };
    let second = |k: usize| {
        let (file, journal) = black_box(&inputs[k]);
        black_box(second::judge(file, journal));
    };
    let sides: [Work; 2] = [Box::new(ours), Box::new(second)];
    measure_each(&format!("journal {}, rows", size.name), sides, ROWS);
}

/// Prints a line: the best turn of each side, and ours over each of the others.
fn measure(name: &str, sides: [Work; 3]) {
    measure_each(name, sides, 1);
}

/// The same of inputs that count for more than one each, also without plain C.
fn measure_each<const SIDES: usize>(name: &str, mut sides: [Work; SIDES], each: usize) {
    let once = (0..3).map(|_| sides.each_mut().map(|side| turn(side, 1)));
    let slowest = |t: [f64; SIDES]| t.into_iter().fold(0.0, f64::max);
    let times = (TURN / once.map(slowest).fold(f64::INFINITY, f64::min)).ceil() as usize;
    let mut turns = vec![[0.0; SIDES]; TURNS];
    for (at, taken) in turns.iter_mut().enumerate() {
        // Each side goes first in turn.
        for side in (0..SIDES).map(|k| (at + k) % SIDES) {
            taken[side] = turn(&mut sides[side], times);
        }
    }
    let best = |side: usize| turns.iter().map(|t| t[side]).fold(f64::INFINITY, f64::min);
    let rate = |side: usize| format!("{:.0}", (times * INPUTS * each) as f64 / best(side));
    let over = |side: usize| {
        let mut ratios: Vec<f64> = turns.iter().map(|t| t[side] / t[0]).collect();
        ratios.sort_by(f64::total_cmp);
        format!("{:.2} ({:.2})", best(side) / best(0), ratios[TURNS / 2])
    };
    let (mut rates, mut overs) = (vec![rate(0)], Vec::new());
    for side in 1..3 {
        let there = side < SIDES;
        let say = |of: &dyn Fn(usize) -> String| {
            let none = || String::from("-");
            there.then(|| of(side)).unwrap_or_else(none)
        };
        rates.push(say(&rate));
        overs.push(say(&over));
    }
    println!(
        "{name:<58}{:>10}{:>10}{:>10}{:>16}{:>16}",
        rates[0], rates[1], rates[2], overs[0], overs[1]
    );
}

/// Seconds for all inputs, so many times.
fn turn(work: &mut Work, times: usize) -> f64 {
    let start = Instant::now();
    for _ in 0..times {
        for k in 0..INPUTS {
            work(k);
        }
    }
    start.elapsed().as_secs_f64()
}
