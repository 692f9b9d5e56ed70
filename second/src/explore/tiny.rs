//! All very small tables.

use crate::graph::has_cycle;
use crate::table::*;

/// A task by itself: entry and costs.
type Lone = (Task, [u32; ENTRIES]);
/// D, T and the largest cost.
type Frame = (u32, u32, u32);

/// Calls `each` with all tables with up to 3 processors and numbers up to
/// `most`, costs of 0 and a D up to four times T among them: one task of up to 3
/// vertices, or two of up to 2 each, until `each` says false. Gives whether it
/// went through to the end.
pub fn small_tables(most: u32, each: impl FnMut(&Table) -> bool) -> bool {
    let frames = (1..=most).flat_map(|period| {
        let deadlines = 1..=most.min(most_deadline(period));
        deadlines.map(move |deadline| (deadline, period, most))
    });
    let frames: Vec<Frame> = frames.collect();
    all_tables(3, &lone_tasks(3, &frames), &lone_tasks(2, &frames), each)
}

/// The same with up to 8 processors, T up to `most`, D up to four times T and
/// costs up to D: one task of up to 2 vertices, or two of one vertex each.
pub fn long_tables(most: u32, each: impl FnMut(&Table) -> bool) -> bool {
    let frames = (1..=most).flat_map(|period| {
        let deadlines = 1..=most_deadline(period);
        deadlines.map(move |deadline| (deadline, period, deadline))
    });
    let frames: Vec<Frame> = frames.collect();
    all_tables(8, &lone_tasks(2, &frames), &lone_tasks(1, &frames), each)
}

/// All tables of up to so many processors with one of these tasks, or with two
/// of those: each two in one order, for an exploration takes ties in every way.
fn all_tables(
    processors: u8,
    one: &[Lone],
    two: &[Lone],
    mut each: impl FnMut(&Table) -> bool,
) -> bool {
    (1..=processors).all(|m| {
        one.iter().all(|task| each(&build(m, &[task])))
            && two.iter().enumerate().all(|(at, first)| {
                let mut seconds = two[at..].iter();
                seconds.all(|second| each(&build(m, &[first, second])))
            })
    })
}

fn build(m: u8, tasks: &[&Lone]) -> Table {
    let mut table = Table {
        m,
        n: tasks.len() as u8,
        ..Table::ZERO
    };
    for (i, (task, costs)) in tasks.iter().enumerate() {
        table.tasks[i] = *task;
        table.costs[ENTRIES * i..][..ENTRIES].copy_from_slice(costs);
    }
    table
}

/// Every task of up to `vertices` vertices in one of these frames.
fn lone_tasks(vertices: usize, frames: &[Frame]) -> Vec<Lone> {
    let mut tasks = Vec::new();
    for v in 1..=vertices {
        for succ in graphs(v) {
            for (deadline, period, most) in frames.iter().copied() {
                let task = Task {
                    v: v as u8,
                    deadline,
                    period,
                    succ,
                };
                tasks.extend(costs(v, most).into_iter().map(|costs| (task, costs)));
            }
        }
    }
    tasks
}

/// Every set of edges on v vertices without a cycle.
fn graphs(v: usize) -> Vec<[u16; ENTRIES]> {
    let all = 0..1u32 << (v * v);
    let rows = all.map(|bits| {
        let mut succ = [0; ENTRIES];
        for (h, row) in succ.iter_mut().take(v).enumerate() {
            *row = (bits >> (h * v)) as u16 & ((1 << v) - 1);
        }
        succ
    });
    // A bit from a vertex to itself is a cycle too.
    rows.filter(|succ| !has_cycle(succ, v)).collect()
}

fn costs(v: usize, most: u32) -> Vec<[u32; ENTRIES]> {
    let mut rows = vec![[0; ENTRIES]];
    for h in 0..v {
        let longer = rows.iter().flat_map(|row| {
            (0..=most).map(move |cost| {
                let mut row = *row;
                row[h] = cost;
                row
            })
        });
        rows = longer.collect();
    }
    rows
}
