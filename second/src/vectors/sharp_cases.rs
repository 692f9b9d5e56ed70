//! Cases for the sharp verdict and its report.

use super::verdict_cases::*;
use crate::examples::{table_long, table_lowest, table_marks, TABLE_A};
use crate::random::*;
use crate::sharp::SHARP;
use crate::table::*;

/// The low end of the sharp margin's range and tables about it, periods and
/// costs of every size among them: the sum has up to a million terms.
fn lowest_cases(r: &mut Random, cases: &mut Vec<Vec<u8>>) {
    let lowest = table_lowest();
    for m in [1, 2, 8] {
        cases.push(file(&Table { m, ..lowest }));
    }
    about(r, &lowest, 12, cases);
    for _ in 0..12 {
        let mut table = lowest;
        for task in &mut table.tasks[1..] {
            task.period = ticks(r);
            task.deadline = 1;
        }
        for cost in &mut table.costs[ENTRIES..] {
            *cost = ticks(r);
        }
        table.n = r.range(1, 4) as u8;
        for i in usize::from(table.n)..ENTRIES {
            table.tasks[i] = Task::ZERO;
            table.costs[ENTRIES * i..][..ENTRIES].fill(0);
        }
        cases.push(file(&table));
    }
}

/// Tables with a chain about as long as its task's D, or longer: alone, beside
/// others, and beside a lower task with a negative margin.
fn long_cases(r: &mut Random, cases: &mut Vec<Vec<u8>>) {
    for at in 0..120 {
        let scale = r.pick(&[12, 40, 600, 30_000]);
        let n = r.below(4) + 1;
        let mut table = near_edge_of(r, &SHARP, n, 5, scale);
        shorten(r, &mut table);
        if at % 3 == 0 {
            let more = r.range(1, scale);
            table.costs[0] = (table.costs[0] + more).min(MOST_TICKS);
        }
        cases.push(file(&table));
    }
}

/// Sixteen tasks of which only one has a chain longer than its D.
fn long_task_cases(r: &mut Random, cases: &mut Vec<Vec<u8>>) {
    for k in 0..ENTRIES {
        let mut table = near_edge_of(r, &SHARP, ENTRIES, 2, 5_000);
        let len = crate::verdict::figures(&table, k).len as u32;
        table.tasks[k].deadline = len.saturating_sub(1).max(1);
        table.costs[ENTRIES * k] += u32::from(len <= 1) * 2;
        cases.push(file(&table));
    }
}

/// Tables that the two verdicts tell apart, and their neighbours.
fn apart_cases(r: &mut Random, cases: &mut Vec<Vec<u8>>) {
    for _ in 0..130 {
        let scale = r.pick(&[3, 10, 100, 20_000]);
        let table = short_beside_long(r, scale);
        about(r, &table, 2, cases);
    }
}

/// Every case made for the sharp verdict and its report, the same for the
/// same seed.
pub fn sharp_cases(seed: u64) -> Vec<Vec<u8>> {
    let r = &mut Random::new(seed);
    let mut cases = vec![TABLE_A.to_vec()];
    about(r, &table_marks(), 30, &mut cases);
    about(r, &table_long(), 30, &mut cases);
    edge_cases(r, &SHARP, 5, &mut cases);
    task_cases(r, &SHARP, &mut cases);
    extreme_cases(&mut cases);
    lowest_cases(r, &mut cases);
    long_cases(r, &mut cases);
    long_task_cases(r, &mut cases);
    apart_cases(r, &mut cases);
    sized_cases(r, &mut cases);
    cut_and_changed(r, 4, &mut cases);
    damaged_cases(r, 80, &mut cases);
    cyclic_cases(r, 15, &mut cases);
    cases
}

/// Every case for both verdicts and their reports; the first is the empty
/// file.
pub fn both_cases(seed: u64) -> Vec<Vec<u8>> {
    let mut cases = verdict_cases(seed);
    cases.extend(sharp_cases(seed));
    cases
}
