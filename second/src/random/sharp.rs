//! Random tables on which the sharp verdict says more or less than the old one.

use super::{last_good, near_edge_of, Random};
use crate::examples::plain_task;
use crate::sharp::{judge_sharp, SHARP};
use crate::table::*;
use crate::verdict::figures;

/// Near the sharp verdict's edge, or just beyond where a chain is too long.
pub fn near_sharp_edge(r: &mut Random, n: usize, most: usize, scale: u32) -> Table {
    let mut table = near_edge_of(r, &SHARP, n, most, scale);
    if r.one_in(4) {
        shorten(r, &mut table);
    }
    table
}

/// Gives some tasks a D about as long as their longest chain, or a little
/// less; on one processor half of the time, where the margin may then be 0.
pub fn shorten(r: &mut Random, table: &mut Table) {
    if r.coin() {
        table.m = 1;
    }
    for _ in 0..=r.below(2) {
        let k = r.below(usize::from(table.n));
        let len = figures(table, k).len as u32;
        let under = r.range(0, 3);
        let task = &mut table.tasks[k];
        task.deadline = len
            .saturating_sub(under)
            .clamp(1, most_deadline(task.period));
    }
}

/// A short job beside a long one that forks into many steps and has a long way
/// to go after them: within the short job's deadline the old verdict counts
/// all of these steps, the sharp one none. Numbers are about `scale`.
pub fn short_beside_long(r: &mut Random, scale: u32) -> Table {
    let mut table = Table {
        m: r.range(2, 8) as u8,
        n: 2,
        ..Table::ZERO
    };
    let short = r.range(2, 2 * scale);
    let wide = r.below(usize::from(table.m)) + 1;
    let times = r.range(2, 8);
    let long = (short * times).min(MOST_TICKS);
    put_fork(&mut table, 0, wide, [0, 1, 0]);
    let steps = r.below(13) + 1;
    let ends = [r.range(0, short / 2), r.range(1, short), short];
    put_fork(&mut table, 1, steps, ends);
    for (task, ticks) in table.tasks.iter_mut().zip([short, long]) {
        task.deadline = ticks;
        let least = if r.coin() { ticks } else { least_period(ticks) };
        task.period = r.range(least, (ticks + ticks / 4).min(MOST_TICKS));
    }
    if r.coin() {
        grow_steps(&mut table, steps, MOST_TICKS, is_sharp);
    }
    table
}

/// A small one of this kind, for exhaustive exploration: the short job's steps
/// cost 1 each, the long job's all as much as `accepts` allows, up to 6.
pub fn tiny_fork(r: &mut Random, accepts: impl Fn(&Table) -> bool) -> Table {
    let mut table = Table {
        m: r.range(2, 3) as u8,
        n: 2,
        ..Table::ZERO
    };
    let short = r.range(2, 4);
    let long = short * r.range(2, 4);
    let wide = r.below(usize::from(table.m - 1) * (short as usize - 1)) + 1;
    plain_task(&mut table, 0, short, short, &[1; ENTRIES][..wide]);
    let steps = r.below(4) + 2;
    put_fork(&mut table, 1, steps, [0, 0, short]);
    (table.tasks[1].deadline, table.tasks[1].period) = (long, long);
    grow_steps(&mut table, steps, 6, accepts);
    table
}

/// A task of a start, steps and an end with these costs.
fn put_fork(table: &mut Table, i: usize, steps: usize, [start, step, end]: [u32; 3]) {
    let task = &mut table.tasks[i];
    task.v = steps as u8 + 2;
    let all = ((1u32 << steps) - 1) as u16;
    task.succ[0] = all << 1;
    task.succ[1..=steps].fill(1 << (steps + 1));
    let row = &mut table.costs[ENTRIES * i..];
    row[0] = start;
    row[1..=steps].fill(step);
    row[steps + 1] = end;
}

/// Makes the steps of task 1 as dear as is accepted, all alike.
fn grow_steps(table: &mut Table, steps: usize, most: u32, accepts: impl Fn(&Table) -> bool) {
    let row = ENTRIES + 1..=ENTRIES + steps;
    let cost = last_good(most, |cost| {
        table.costs[row.clone()].fill(cost);
        accepts(table)
    });
    table.costs[row].fill(cost);
}

fn is_sharp(table: &Table) -> bool {
    judge_sharp(table).number == 0
}
