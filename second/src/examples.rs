//! Document 01's examples, run against any program with these functions.

use crate::machine::*;
use crate::random::file;
use crate::reader::{read, Read};
use crate::report::report;
use crate::table::*;
use crate::verdict::{verdict, Verdict};

/// The functions that the examples call.
#[derive(Clone, Copy)]
pub struct Program {
    pub read: fn(&[u8]) -> Read,
    pub verdict: fn(&[u8]) -> Verdict,
    pub report: fn(&[u8]) -> Vec<u8>,
    pub open: fn(&[u8], u32) -> Opened,
    pub tick: fn(&[u8], &State, u16) -> Ticked,
}

/// This library's own functions.
pub const OWN: Program = Program {
    read,
    verdict,
    report,
    open,
    tick,
};

/// One example: what a program gave and what document 01 says.
#[derive(Clone, PartialEq, Eq, Debug)]
pub struct Line {
    pub name: &'static str,
    pub got: String,
    pub says: &'static str,
}

impl Line {
    pub fn ok(&self) -> bool {
        self.got == self.says
    }
}

/// Table A's report, byte for byte.
pub const REPORT_A: &str = "\
processors 2 tasks 2
task 0 vol 6 len 5 due 14 margin 1
task 1 vol 4 len 2 due 10 margin 0
accept task 1 margin 0 chain 0
";

/// Table A, written down byte for byte.
pub const TABLE_A: [u8; 52] = [
    0x54, 0x42, 2, 2, // m 2, n 2
    0x54, 0x4B, 3, 2, 10, 0, 0, 0, 12, 0, 0, 0, // task 0: v 3, e 2, D 10, T 12
    2, 0, 0, 0, 3, 0, 0, 0, 1, 0, 0, 0, // costs 2 3 1
    0, 1, 0, 2, // edges 0-1 and 0-2
    0x54, 0x4B, 2, 0, 6, 0, 0, 0, 6, 0, 0, 0, // task 1: v 2, e 0, D 6, T 6
    2, 0, 0, 0, 2, 0, 0, 0, // costs 2 2
];

/// A task without edges: D, T and costs.
pub fn plain_task(table: &mut Table, i: usize, deadline: u32, period: u32, costs: &[u32]) {
    table.tasks[i] = Task {
        v: costs.len() as u8,
        deadline,
        period,
        succ: [0; ENTRIES],
    };
    table.costs[ENTRIES * i..][..costs.len()].copy_from_slice(costs);
}

/// Marks of cost 0 (document 02, M-103): a start, four branches, a join, a step
/// and an end; beside them a job of two steps, and one of marks alone.
pub fn table_marks() -> Table {
    let mut table = Table {
        m: 2,
        n: 3,
        ..Table::ZERO
    };
    plain_task(&mut table, 0, 20, 24, &[0, 4, 3, 5, 2, 0, 3, 0]);
    let edges = [0b0001_1110, 1 << 5, 1 << 5, 1 << 5, 1 << 5, 1 << 6, 1 << 7];
    table.tasks[0].succ[..7].copy_from_slice(&edges);
    plain_task(&mut table, 1, 12, 12, &[2, 1]);
    plain_task(&mut table, 2, 10, 10, &[0, 0]);
    table.tasks[2].succ[0] = 2;
    table
}

/// Deadlines longer than the period (document 02, M-109): four live jobs of task
/// 0 at once and two of task 1, all of which can run.
pub fn table_long() -> Table {
    let mut table = Table {
        m: 8,
        n: 2,
        ..Table::ZERO
    };
    plain_task(&mut table, 0, 16, 4, &[13]);
    plain_task(&mut table, 1, 6, 2, &[2, 1, 1]);
    table.tasks[1].succ[0] = 0b110;
    table
}

/// A table of one task of one vertex.
pub fn table_of_one(m: u8, deadline: u32, period: u32, cost: u32) -> Table {
    let mut table = Table {
        m,
        n: 1,
        ..Table::ZERO
    };
    plain_task(&mut table, 0, deadline, period, &[cost]);
    table
}

/// m 2, one vertex, D = T = 7, and a cost.
fn table_p3(cost: u32) -> Vec<u8> {
    file(&table_of_one(2, 7, 7, cost))
}

/// P5's table.
pub fn table_p5() -> Vec<u8> {
    let mut table = Table {
        m: 8,
        n: 16,
        ..Table::ZERO
    };
    for i in 0..ENTRIES {
        let ticks = if i == 0 { MOST_TICKS } else { 1 };
        plain_task(&mut table, i, ticks, ticks, &[MOST_TICKS; ENTRIES]);
    }
    file(&table)
}

/// The lowest margin, by the old verdict and by the sharp one: P5 with task 0
/// one chain and a T as short as its D allows.
pub fn table_lowest() -> Table {
    let mut table = read(&table_p5()).table;
    table.tasks[0].period = least_period(MOST_TICKS);
    table.tasks[0].succ = std::array::from_fn(|h| (2u32 << h) as u16);
    table
}

fn changed(at: usize, byte: u8) -> Vec<u8> {
    let mut bytes = TABLE_A.to_vec();
    bytes[at] = byte;
    bytes
}

fn say_verdict(program: &Program, bytes: &[u8]) -> String {
    let got = (program.verdict)(bytes);
    let (number, place) = (got.number, got.place);
    format!(
        "{number} at {place} task {} margin {}",
        got.task, got.margin
    )
}

fn say_read(program: &Program, bytes: &[u8]) -> String {
    let got = (program.read)(bytes);
    let zeros = got.table == Table::ZERO;
    format!("{} at {} zeros {zeros}", got.number, got.place)
}

/// Plays table A from a clock; gives each tick's number, task and run list,
/// and the last state.
fn play_a(program: &Program, clock: u32, releases: &[u16]) -> (Vec<String>, State) {
    let mut state = (program.open)(&TABLE_A, clock).state;
    let mut said = Vec::new();
    for set in releases {
        let ticked = (program.tick)(&TABLE_A, &state, *set);
        let answer = ticked.answer;
        let ran = answer.ran.iter().filter(|vertex| **vertex != NO_VERTEX);
        let ran: Vec<_> = ran.map(|(i, age, h)| format!("{i}.{age}.{h}")).collect();
        said.push(format!(
            "{} {} [{}]",
            answer.number,
            answer.task,
            ran.join(" ")
        ));
        state = ticked.state;
    }
    (said, state)
}

fn say_p12(program: &Program) -> String {
    let (said, state) = play_a(program, 4_294_967_286, &[3]);
    let deadline = |i: usize| match state.tasks[i].deadlines[0] {
        Some(deadline) => deadline.to_string(),
        None => String::from("none"),
    };
    format!("deadlines {} {}; {}", deadline(0), deadline(1), said[0])
}

/// Runs every example.
pub fn examples(program: &Program) -> Vec<Line> {
    let line = |name, got, says| Line { name, got, says };
    let longer = [&TABLE_A[..], &[0]].concat();
    let report = String::from_utf8_lossy(&(program.report)(&TABLE_A)).into_owned();
    let said = |releases: &[u16], from: usize| play_a(program, 0, releases).0[from..].join("; ");
    vec![
        line("report A", report, REPORT_A),
        line(
            "P1",
            say_verdict(program, &TABLE_A),
            "0 at 0 task 1 margin 0",
        ),
        line(
            "P2",
            say_verdict(program, &changed(2, 1)),
            "20 at 0 task 0 margin -4",
        ),
        line(
            "P3",
            say_verdict(program, &table_p3(7)),
            "0 at 0 task 0 margin 0",
        ),
        line(
            "P4",
            say_verdict(program, &table_p3(8)),
            "20 at 0 task 0 margin -2",
        ),
        line(
            "P5",
            say_verdict(program, &table_p5()),
            "20 at 0 task 0 margin -240000015000000",
        ),
        line("P6", say_read(program, &[]), "1 at 0 zeros true"),
        line("P7", say_read(program, &longer), "8 at 52 zeros true"),
        line(
            "P8",
            say_read(program, &changed(31, 1)),
            "6 at 30 zeros true",
        ),
        line(
            "P9",
            said(&[3, 0, 0, 0], 0),
            "0 255 [1.0.0 1.0.1]; 0 255 [1.0.0 1.0.1]; 0 255 [0.0.0]; 0 255 [0.0.0]",
        ),
        line("P10", said(&[3, 0, 0, 0, 0, 2], 5), "33 1 []"),
        line(
            "P11",
            said(&[3, 0, 0, 0, 0, 0, 2], 6),
            "0 255 [0.0.1 1.0.0]",
        ),
        line(
            "P12",
            say_p12(program),
            "deadlines 0 4294967292; 0 255 [1.0.0 1.0.1]",
        ),
    ]
}
