//! Holds the plain C version against the second program, so that what is measured is the same work.

use crate::plain;
use compare::ticking::{self, Input};
use compare::{face, judging, reading, sharply, writing};
use second::flat::FlatState;
use second::random::*;
use second::table::LARGEST;
use second::Table;

/// Random inputs, damaged ones among them, beside those that are measured.
const RANDOM: u64 = 20_000;

/// Ends the program where the plain C version differs on these tables, or on random inputs.
pub fn check(tables: &[Table]) {
    for table in tables {
        whole(&file(table));
        write(table);
    }
    for seed in 0..RANDOM {
        let r = &mut Random::new(seed);
        whole(&reading::input(r));
        whole(&judging::input(r));
        whole(&sharply::input(r));
        write(&writing::input(r));
        run(r);
        tick(&ticking::input(r));
    }
}

fn same<T: PartialEq + std::fmt::Debug>(what: &str, plain: T, second: T) {
    if plain != second {
        eprintln!("the plain C version's {what} differs:\n{plain:?}\nand not\n{second:?}");
        std::process::exit(1);
    }
}

/// Reading, both verdicts and reports of a file, and opening it.
fn whole(bytes: &[u8]) {
    let found = second::read(bytes);
    let mut table = plain::no_table();
    let answer = plain::read(bytes, &mut table);
    same("number", answer.number, found.number);
    same("place", answer.place, found.place);
    same("table", table, face::Table::from(&found.table));
    let theirs = |verdict| face::VerdictAnswer::from(&verdict);
    let verdict = theirs(second::verdict(bytes));
    same("verdict", plain::verdict(bytes), verdict);
    let sharp = theirs(second::sharp(bytes));
    same("sharp verdict", plain::sharp(bytes), sharp);
    let mut buffer = [0u8; face::MAX_REPORT];
    let length = plain::report(bytes, &mut buffer);
    same("report", &buffer[..length], &second::report(bytes)[..]);
    let length = plain::sharp_report(bytes, &mut buffer);
    let text = second::sharp_report(bytes);
    same("sharp report", &buffer[..length], &text[..]);
    let opened = second::flat::open(bytes, 7);
    let mut state = opened.state;
    state.clock = 1;
    plain::open(bytes, 7, &mut state);
    same("opening", state, opened.state);
}

fn write(table: &Table) {
    let (mut mine, mut theirs) = ([0xA5u8; LARGEST], [0xA5u8; LARGEST]);
    let answer = plain::write(&face::Table::from(table), &mut mine);
    let said = second::write(table, &mut theirs);
    same("writing", (answer.number, answer.place), said);
    same("file", mine, theirs);
}

/// A run of ticks, each on the state before: allowed releases and some that are not.
fn run(r: &mut Random) {
    let table = ticking::lively(r);
    let mut input = Input {
        bytes: file(&table),
        state: FlatState::from(&fitting(r, &table)),
        releases: 0,
    };
    for _ in 0..12 {
        if let Some(state) = input.state.state() {
            input.releases = ticking::any_releases(r, &table, &state);
        }
        input.state = tick(&input);
    }
}

/// A tick, and the state after it.
fn tick(input: &Input) -> face::State {
    let mut state = input.state;
    let answer = plain::tick(&input.bytes, &mut state, input.releases);
    let theirs = second::flat::tick(&input.bytes, &input.state, input.releases);
    same("tick", answer, face::TickAnswer::from(&theirs.answer));
    same("state", state, theirs.state);
    state
}
