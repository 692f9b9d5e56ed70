//! The verdict: number, task, place, margin and chain, byte for byte; and what both verdicts are compared with and on.

use crate::comparison::{hex, same, Comparison, Difference};
use crate::face;
use crate::reading;
use second::random::*;
use second::table::{least_period, ENTRIES, MOST_TICKS};

pub const JUDGING: Comparison = Comparison {
    name: "verdict",
    one,
    share: 1,
    must_meet: &[0, 1, 2, 3, 4, 5, 6, 7, 8, 20],
};

fn one(r: &mut Random) -> Result<u8, Difference> {
    both(&input(r), second::verdict, face::verdict)
}

/// A verdict on a file from both sides.
pub fn both(
    bytes: &[u8],
    theirs: fn(&[u8]) -> second::Verdict,
    ours: fn(&[u8]) -> face::VerdictAnswer,
) -> Result<u8, Difference> {
    let theirs = face::VerdictAnswer::from(&theirs(bytes));
    same(theirs.number, &ours(bytes), &theirs, || hex(bytes))
}

/// A table's file, now and then with damage, or what the reader is compared on. About half of those that are read are accepted.
pub fn input(r: &mut Random) -> Vec<u8> {
    input_near(r, near_edge)
}

/// A table near a verdict's edge: so many tasks, at most so many vertices a task, ticks about as large as this.
pub type NearEdge = fn(&mut Random, usize, usize, u32) -> second::Table;

/// The same for any verdict.
pub fn input_near(r: &mut Random, edge: NearEdge) -> Vec<u8> {
    if r.one_in(8) {
        return reading::input(r);
    }
    let table = match r.below(32) {
        0 => table(r),
        1 => largest_table(r),
        2 | 3 => extreme(r),
        4..=11 => tiny_table(r, true),
        12 => near(r, edge, ENTRIES, ENTRIES),
        13..=15 => near(r, edge, ENTRIES, 3),
        _ => near(r, edge, 4, 6),
    };
    let mut bytes = file(&table);
    if r.one_in(12) {
        damage(r, &mut bytes);
    }
    bytes
}

/// Near the verdict's edge, or with costs cut to a half, with at most so many tasks and vertices a task, and ticks of any size.
fn near(r: &mut Random, edge: NearEdge, tasks: usize, vertices: usize) -> second::Table {
    let n = r.below(tasks) + 1;
    let scale = match r.below(4) {
        0 => r.range(2, 40),
        1 => r.range(40, 5_000),
        2 => r.range(5_000, MOST_TICKS),
        _ => MOST_TICKS,
    };
    let mut table = edge(r, n, vertices, scale);
    if r.one_in(3) {
        table.costs = table.costs.map(|cost| cost.div_ceil(2));
    }
    table
}

/// What the ticks of an extreme table are taken from.
const ENDS: [&[u32]; 3] = [&[1], &[MOST_TICKS], &[1, MOST_TICKS]];
const COST_ENDS: [&[u32]; 4] = [&[0], &[1], &[MOST_TICKS], &[0, MOST_TICKS]];

/// Every number at an end of its range, for the smallest margin and the largest.
fn extreme(r: &mut Random) -> second::Table {
    let mut table = if r.coin() { largest_table(r) } else { table(r) };
    let (times, costs) = (r.pick(&ENDS), r.pick(&COST_ENDS));
    table.m = r.pick(&[1, 8]);
    for i in 0..usize::from(table.n) {
        let (one, other) = (r.pick(times), r.pick(times));
        let task = &mut table.tasks[i];
        task.deadline = one;
        task.period = other.max(least_period(one));
        for h in 0..usize::from(task.v) {
            table.costs[ENTRIES * i + h] = r.pick(costs);
        }
    }
    if r.coin() {
        table.tasks[0].deadline = MOST_TICKS;
        table.tasks[0].period = MOST_TICKS;
    }
    table
}
