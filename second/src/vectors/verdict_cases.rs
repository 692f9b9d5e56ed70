//! Cases for the verdict and the report.

use crate::examples::*;
use crate::random::*;
use crate::reader::read;
use crate::table::*;
use crate::verdict::{Way, OLD};

/// A number of ticks near another, within its range.
fn near(r: &mut Random, ticks: u32) -> u32 {
    let less = r.range(0, 4);
    (ticks + 2).saturating_sub(less).clamp(1, MOST_TICKS)
}

/// One number of a valid table changed a little, so that it stays valid.
fn nudge(r: &mut Random, table: &mut Table) {
    let i = r.below(usize::from(table.n));
    let task = &mut table.tasks[i];
    let at = ENTRIES * i + r.below(usize::from(task.v));
    match r.below(8) {
        0 => table.m = r.range(1, 8) as u8,
        1 | 2 => task.deadline = near(r, task.deadline).min(most_deadline(task.period)),
        3 => task.period = near(r, task.period).max(least_period(task.deadline)),
        4 => table.costs[at] = ticks(r),
        5 => table.costs[at] = 0,
        _ => table.costs[at] = near(r, table.costs[at]),
    }
}

/// Files about a table: itself, then one number at a time, of itself or of the
/// last one.
pub fn about(r: &mut Random, base: &Table, count: usize, cases: &mut Vec<Vec<u8>>) {
    cases.push(file(base));
    let mut table = *base;
    for _ in 0..count {
        if r.coin() {
            table = *base;
        }
        nudge(r, &mut table);
        cases.push(file(&table));
    }
}

/// Near the verdict's edge, for every task count; `each` neighbours of each.
pub fn edge_cases(r: &mut Random, way: &Way, each: usize, cases: &mut Vec<Vec<u8>>) {
    for n in 1..=ENTRIES {
        for most in [1, 2, 4, 6] {
            let scale = r.pick(&[20, 200, 5_000, 300_000, MOST_TICKS]);
            let most = if n > 8 { most.min(3) } else { most };
            let table = near_edge_of(r, way, n, most, scale);
            about(r, &table, each, cases);
        }
    }
}

/// A valid table whose smallest margin is task k's: the others have twice its
/// deadline or more, and no period is below a deadline. Then a cost of task k
/// that brings its margin to 0 or just above, and larger ones.
pub fn task_cases(r: &mut Random, way: &Way, cases: &mut Vec<Vec<u8>>) {
    for n in [2, 3, 5, 16] {
        for k in 0..n {
            let mut table = table_sized(r, n, 2);
            let close = r.range(1_000, 100_000);
            table.costs = table.costs.map(|cost| cost % (close / 40));
            for i in 0..n {
                let task = &mut table.tasks[i];
                task.deadline = r.range(2 * close, 4 * close);
                task.period = r.range(4 * close, 5 * close);
                for h in 0..usize::from(task.v) {
                    table.costs[ENTRIES * i + h] += 1;
                }
            }
            table.tasks[k].deadline = close;
            table.costs[ENTRIES * k] += room(way, &mut table, ENTRIES * k);
            for _ in 0..4 {
                cases.push(file(&table));
                table.costs[ENTRIES * k] += 1;
            }
            table.tasks[k].deadline += 2;
            cases.push(file(&table));
        }
    }
}

/// The ends of the margin's range and of each number's.
pub fn extreme_cases(cases: &mut Vec<Vec<u8>>) {
    let p5 = read(&table_p5()).table;
    for m in 1..=8 {
        cases.push(file(&Table { m, ..p5 }));
    }
    let lowest = table_lowest();
    for m in 1..=8 {
        cases.push(file(&Table { m, ..lowest }));
    }
    // The highest: one vertex of cost 0, D = T as large as can be.
    for m in 1..=8 {
        for (cost, deadline) in [
            (0, MOST_TICKS),
            (1, MOST_TICKS),
            (MOST_TICKS, MOST_TICKS),
            (0, 1),
            (1, 1),
            (2, 1),
        ] {
            let mut table = Table::ZERO;
            (table.m, table.n) = (m, 1);
            plain_task(&mut table, 0, deadline, MOST_TICKS, &[cost]);
            cases.push(file(&table));
        }
    }
    // All numbers the largest, with sixteen tasks and with one.
    for n in [1, 16] {
        let mut table = Table::ZERO;
        (table.m, table.n) = (8, n);
        for i in 0..usize::from(n) {
            let most = [MOST_TICKS; ENTRIES];
            plain_task(&mut table, i, MOST_TICKS, MOST_TICKS, &most);
        }
        cases.push(file(&table));
    }
    // 70,000 microseconds of work within 60,000.
    let mut table = Table::ZERO;
    (table.m, table.n) = (1, 1);
    plain_task(&mut table, 0, 60_000, 60_000, &[35_000, 35_000]);
    cases.push(file(&table));
}

/// Tables that are soon accepted: small costs, and their neighbours.
fn roomy_cases(r: &mut Random, cases: &mut Vec<Vec<u8>>) {
    for at in 0..120 {
        let mut table = table_sized(r, at % ENTRIES + 1, 3);
        for i in 0..usize::from(table.n) {
            let task = &mut table.tasks[i];
            task.deadline = task.deadline.max(r.range(100, 5_000));
            task.period = task.period.max(least_period(task.deadline));
            for h in 0..usize::from(task.v) {
                table.costs[ENTRIES * i + h] = r.range(1, 9);
            }
        }
        about(r, &table, 7, cases);
    }
}

/// Files of every size and density, the largest among them.
pub fn sized_cases(r: &mut Random, cases: &mut Vec<Vec<u8>>) {
    for _ in 0..12 {
        let table = table(r);
        about(r, &table, 6, cases);
    }
    let table = largest_table(r);
    about(r, &table, 12, cases);
}

/// Files that reading refuses, and what damage leaves readable.
fn refused_cases(r: &mut Random, cases: &mut Vec<Vec<u8>>) {
    cut_and_changed(r, 6, cases);
    damaged_cases(r, 200, cases);
    cyclic_cases(r, 60, cases);
}

/// Table A cut short everywhere, longer, and with each byte changed.
pub fn cut_and_changed(r: &mut Random, times: usize, cases: &mut Vec<Vec<u8>>) {
    cases.extend((1..TABLE_A.len()).map(|end| TABLE_A[..end].to_vec()));
    let mut longer = TABLE_A.to_vec();
    longer.push(0);
    cases.push(longer);
    for at in 0..TABLE_A.len() {
        for _ in 0..times {
            let mut case = TABLE_A.to_vec();
            case[at] = r.pick(&[0, 1, 2, 3, 5, 9, 17, 121, 255]);
            cases.push(case);
        }
    }
}

/// Damaged files.
pub fn damaged_cases(r: &mut Random, count: usize, cases: &mut Vec<Vec<u8>>) {
    for _ in 0..count {
        let n = r.below(3) + 1;
        let table = near_edge(r, n, 4, 60);
        let mut case = file(&table);
        damage(r, &mut case);
        if case.is_empty() {
            continue;
        }
        cases.push(case);
    }
}

/// Files with a task of three vertices in a ring.
pub fn cyclic_cases(r: &mut Random, count: usize, cases: &mut Vec<Vec<u8>>) {
    for _ in 0..count {
        let mut table = near_edge(r, 2, 4, 60);
        let i = r.below(2);
        table.tasks[i].v = 3;
        table.tasks[i].succ = [0; ENTRIES];
        table.tasks[i].succ[..3].copy_from_slice(&[2, 4, 1]);
        table.costs[ENTRIES * i..][..3].fill(1);
        cases.push(raw(&table));
    }
}

/// Every case for the verdict and the report, the same for the same seed; the
/// first is the empty file.
pub fn verdict_cases(seed: u64) -> Vec<Vec<u8>> {
    let r = &mut Random::new(seed);
    let mut cases = vec![Vec::new(), TABLE_A.to_vec()];
    let mut one = TABLE_A.to_vec();
    one[2] = 1;
    cases.push(one);
    about(r, &table_marks(), 40, &mut cases);
    about(r, &table_long(), 40, &mut cases);
    edge_cases(r, &OLD, 20, &mut cases);
    task_cases(r, &OLD, &mut cases);
    extreme_cases(&mut cases);
    roomy_cases(r, &mut cases);
    sized_cases(r, &mut cases);
    refused_cases(r, &mut cases);
    cases
}
