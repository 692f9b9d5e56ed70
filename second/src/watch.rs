//! The text that shows a table run, tick by tick.

use crate::machine::{job_at, open, tick_table, Answer, State, NO_VERTEX};
use crate::reader::read;
use crate::table::{Table, ENTRIES};
use crate::verdict::NO_TASK;
use std::fmt::Write;

/// An input taken apart: a table's bytes, a clock, and a release set a tick.
#[derive(Clone, PartialEq, Eq, Debug)]
pub struct Run {
    pub table: Vec<u8>,
    pub clock: u32,
    pub releases: Vec<u16>,
}

impl Run {
    /// The run that an input stands for. Where the input ends within the table,
    /// the table is what is there; within the clock, the rest of it is 0.
    pub fn of(input: &[u8]) -> Run {
        let (head, rest) = front(input, 2);
        let length = number(head) as usize;
        let (table, rest) = front(rest, length);
        let (clock, rest) = front(rest, 4);
        Run {
            table: table.to_vec(),
            clock: number(clock),
            releases: rest
                .chunks_exact(2)
                .map(|pair| u16::from_le_bytes([pair[0], pair[1]]))
                .collect(),
        }
    }

    /// The input that stands for this run.
    pub fn input(&self) -> Vec<u8> {
        let length = u16::try_from(self.table.len()).expect("a length of two bytes");
        let mut out = length.to_le_bytes().to_vec();
        out.extend(&self.table);
        out.extend(self.clock.to_le_bytes());
        out.extend(self.releases.iter().flat_map(|set| set.to_le_bytes()));
        out
    }
}

fn front(bytes: &[u8], most: usize) -> (&[u8], &[u8]) {
    bytes.split_at(most.min(bytes.len()))
}

/// Little-endian; bytes that are not there count as 0.
fn number(bytes: &[u8]) -> u32 {
    let digits = bytes.iter().enumerate();
    digits.map(|(k, byte)| u32::from(*byte) << (8 * k)).sum()
}

/// The lines that the watch program prints for an input.
pub fn watch(input: &[u8]) -> Vec<u8> {
    let mut text = String::new();
    put(&mut text, &Run::of(input)).expect("a string takes every line");
    text.into_bytes()
}

fn put(text: &mut String, run: &Run) -> std::fmt::Result {
    let opened = open(&run.table, run.clock);
    if opened.number != 0 {
        return writeln!(text, "refuse {} at {}", opened.number, opened.place);
    }
    let table = read(&run.table).table;
    writeln!(
        text,
        "open {} processors {} tasks {}",
        run.clock, table.m, table.n
    )?;
    let mut state = opened.state;
    for releases in &run.releases {
        state = put_tick(text, &table, &state, *releases)?;
    }
    Ok(())
}

/// A tick's line; the state after it.
fn put_tick(
    text: &mut String,
    table: &Table,
    state: &State,
    releases: u16,
) -> Result<State, std::fmt::Error> {
    write!(text, "tick {} release {}", state.clock, tasks(releases))?;
    let ticked = tick_table(table, state, releases);
    let answer = ticked.answer;
    match answer.number {
        0 | 34 => {
            let (run, finish) = (vertices(&answer), tasks(answer.finished));
            let left = left(&ticked.state);
            write!(text, " run {run} finish {finish} left {left}")?;
            if answer.number == 34 {
                write!(text, " miss {}", answer.task)?;
            }
        }
        number => {
            write!(text, " refuse {number}")?;
            if answer.task != NO_TASK {
                write!(text, " task {}", answer.task)?;
            }
        }
    }
    writeln!(text)?;
    Ok(ticked.state)
}

/// The tasks of a set, ascending.
fn tasks(set: u16) -> String {
    let named = (0..ENTRIES).filter(|i| set >> i & 1 == 1);
    list(named.map(|i| i.to_string()).collect())
}

/// The vertices that ran, in rank order.
fn vertices(answer: &Answer) -> String {
    let ran = answer.ran.iter().filter(|place| **place != NO_VERTEX);
    list(ran.map(|(i, age, h)| format!("{i}.{age}.{h}")).collect())
}

/// What is left of the work of each live job, ascending by task and age place.
fn left(state: &State) -> String {
    let live = (0..ENTRIES).flat_map(|i| state.tasks[i].jobs().map(move |(age, _)| (i, age)));
    let word = |(i, age)| format!("{i}.{age}:{}", state.work[job_at(i, age)]);
    list(live.map(word).collect())
}

fn list(words: Vec<String>) -> String {
    if words.is_empty() {
        return String::from("-");
    }
    words.join(" ")
}
