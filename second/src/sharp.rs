//! The sharp verdict (document 02, M-107): what is due of a vertex counts only as
//! far as its job's deadline leaves time for the longest chain after it.

use crate::table::*;
use crate::verdict::{figures_with, first_negative, rows_with, vols, Figures, Rows, Verdict, Way};

/// The sharp verdict. A chain longer than D is looked for by itself, over all
/// tasks, before any margin.
pub const SHARP: Way = Way {
    rows,
    refusal: |table, rows| {
        let long = first_too_long(table, rows).map(|k| (22, k));
        long.or_else(|| first_negative(rows).map(|k| (23, k)))
    },
};

/// The sharp verdict on a file's bytes.
pub fn sharp(bytes: &[u8]) -> Verdict {
    SHARP.verdict(bytes)
}

/// The sharp verdict on a table that the reader gave.
pub fn judge_sharp(table: &Table) -> Verdict {
    SHARP.judge(table)
}

/// The lowest task whose longest chain exceeds its D.
fn first_too_long(table: &Table, rows: &[Figures]) -> Option<usize> {
    let deadline = |k: usize| i64::from(table.tasks[k].deadline);
    (0..rows.len()).find(|k| rows[*k].len > deadline(*k))
}

/// vol, len, sharp due and sharp margin of task k of a table that the reader
/// gave.
pub fn sharp_figures(table: &Table, k: usize) -> Figures {
    let due = sharp_due(table, &all_tails(table), k, part);
    figures_with(table, k, vols(table)[k], due)
}

fn rows(table: &Table) -> Rows {
    let tails = all_tails(table);
    rows_with(table, &vols(table), |k| sharp_due(table, &tails, k, part))
}

/// For each task the tails of its vertices.
pub type Tails = [[i64; ENTRIES]; ENTRIES];

pub fn all_tails(table: &Table) -> Tails {
    let mut tails = [[0; ENTRIES]; ENTRIES];
    for (i, row) in tails.iter_mut().enumerate().take(usize::from(table.n)) {
        *row = tails_of(&table.tasks[i], table.costs_of(i));
    }
    tails
}

/// The tail of each vertex of a task without a cycle: the longest chain after
/// it, itself left out.
pub fn tails_of(task: &Task, costs: &[u32; ENTRIES]) -> [i64; ENTRIES] {
    let mut found = [None; ENTRIES];
    let mut tails = [0; ENTRIES];
    for (h, tail) in tails.iter_mut().enumerate().take(usize::from(task.v)) {
        *tail = descend(task, costs, h, &mut found);
    }
    tails
}

/// A vertex's tail by depth-first descent through its successors. What was
/// found is kept: a graph may have tens of thousands of chains.
fn descend(
    task: &Task,
    costs: &[u32; ENTRIES],
    h: usize,
    found: &mut [Option<i64>; ENTRIES],
) -> i64 {
    if let Some(tail) = found[h] {
        return tail;
    }
    let mut tail = 0;
    for next in (0..ENTRIES).filter(|next| task.succ[h] >> next & 1 == 1) {
        let after = descend(task, costs, next, found);
        tail = i64::max(tail, i64::from(costs[next]) + after);
    }
    found[h] = Some(tail);
    tail
}

/// What a vertex adds to the work that is due within a window.
#[derive(Clone, Copy, Debug)]
pub struct Share {
    pub cost: i64,
    pub tail: i64,
    pub period: i64,
    pub window: i64,
}

/// The work that is due for task k: what each vertex of each task adds, by any
/// rule.
pub fn sharp_due(table: &Table, tails: &Tails, k: usize, part: impl Fn(Share) -> i64) -> i64 {
    let window = i64::from(table.tasks[k].deadline);
    let mut due = 0;
    for i in 0..usize::from(table.n) {
        let period = i64::from(table.tasks[i].period);
        let costs = table.costs_of(i).iter().zip(&tails[i]);
        for (cost, tail) in costs.take(usize::from(table.tasks[i].v)) {
            due += part(Share {
                cost: i64::from(*cost),
                tail: *tail,
                period,
                window,
            });
        }
    }
    due
}

/// Word for word: over h = 0, 1, 2 and on while h times T is below D, the
/// smaller of the cost and the larger of 0 and (D less h times T less the
/// tail). Up to a million terms.
pub fn part_by_the_word(share: Share) -> i64 {
    let rounds = (0..).take_while(|h| h * share.period < share.window);
    let left = |h: i64| share.window - h * share.period - share.tail;
    rounds.map(|h| share.cost.min(left(h).max(0))).sum()
}

/// The same in closed form. Of the rounds that add something the first ones
/// add the whole cost; the others add less by T from one to the next.
pub fn part(share: Share) -> i64 {
    let Share { cost, period, .. } = share;
    let within = share.window - share.tail;
    if within <= 0 || cost == 0 {
        return 0;
    }
    let rounds = (within + period - 1) / period;
    let whole = if within < cost {
        0
    } else {
        rounds.min((within - cost) / period + 1)
    };
    let (most, least) = (within - whole * period, within - (rounds - 1) * period);
    whole * cost + (rounds - whole) * (most + least) / 2
}
