//! Damage to flat states, and any numbers in all of one.

use super::Random;
use crate::flat::{FlatState, FlatTask};
use crate::machine::{job_at, summed};
use crate::table::*;

/// A byte that should be 0 or 1.
fn flag(r: &mut Random) -> u8 {
    match r.below(4) {
        0 => 0,
        1 => 1,
        2 => r.pick(&[2, 3, 128, 254, 255]),
        _ => r.byte(),
    }
}

/// One more, one less or neither.
fn by_one(r: &mut Random) -> u32 {
    r.range(0, 2).wrapping_sub(1)
}

/// A flat state of a table with `changes` changes, states or not: any number in a field or one nearby, jobs that change places, a job
/// too near to the one before it.
pub fn damaged_flat(r: &mut Random, table: &Table, base: &FlatState, changes: usize) -> FlatState {
    let mut flat = *base;
    for _ in 0..changes {
        let i = r.below_either(usize::from(table.n), ENTRIES);
        let age = r.below_either(1, AGES);
        match r.below(16) {
            0 => flat.clock = r.number(),
            1 => flat.stopped = flag(r),
            2 => flat.at = r.number() as u8,
            3 => flat.pad[r.below(2)] = flag(r),
            4..=6 => damage_places(r, &table.tasks[i], &mut flat.tasks[i], age),
            7 => flat.tasks[i].wait = r.number(),
            8 => flat.tasks[i].wait = flat.tasks[i].wait.wrapping_add(by_one(r)),
            9 | 10 => swap_jobs(&mut flat, i, age, r.below(AGES)),
            _ => damage_work(r, &mut flat, job_at(i, age)),
        }
    }
    if r.coin() {
        flat.work = std::array::from_fn(|at| summed(sixteen(&flat.remaining, at)));
    }
    flat
}

/// Another byte or deadline at an age place, one that is nearby, or T ticks behind the place before it and one less.
fn damage_places(r: &mut Random, task: &Task, kept: &mut FlatTask, age: usize) {
    let behind = kept.deadline[age.saturating_sub(1)].wrapping_add(task.period);
    let deadline = &mut kept.deadline[age];
    match r.below(6) {
        0 | 1 => kept.live[age] = flag(r),
        2 => *deadline = r.number(),
        3 => *deadline = deadline.wrapping_add(by_one(r)),
        4 => *deadline = behind.wrapping_sub(1),
        _ => *deadline = behind,
    }
}

/// Two age places of a task with all that stands there: a gap where one has no job, else a wrong order.
pub fn swap_jobs(flat: &mut FlatState, i: usize, one: usize, other: usize) {
    flat.tasks[i].live.swap(one, other);
    flat.tasks[i].deadline.swap(one, other);
    let (one, other) = (job_at(i, one), job_at(i, other));
    flat.work.swap(one, other);
    for h in 0..ENTRIES {
        flat.remaining.swap(ENTRIES * one + h, ENTRIES * other + h);
    }
}

/// Another number for what remains of a vertex, or for a job's stored work.
fn damage_work(r: &mut Random, flat: &mut FlatState, job: usize) {
    let near = by_one(r);
    let at = ENTRIES * job + r.below_either(3, ENTRIES);
    match r.below(4) {
        0 => flat.remaining[at] = flat.remaining[at].wrapping_add(near),
        1 => flat.remaining[at] = r.number(),
        2 => flat.work[job] = flat.work[job].wrapping_add_signed(i64::from(near as i32)),
        _ => flat.work[job] = r.word() >> r.below(64),
    }
}

/// Any number in every field.
pub fn wild_flat(r: &mut Random) -> FlatState {
    FlatState {
        work: std::array::from_fn(|_| r.word() >> r.below(64)),
        clock: r.number(),
        stopped: flag(r),
        at: r.number() as u8,
        pad: std::array::from_fn(|_| flag(r)),
        tasks: std::array::from_fn(|_| FlatTask {
            wait: r.number(),
            deadline: std::array::from_fn(|_| r.number()),
            live: std::array::from_fn(|_| flag(r)),
        }),
        remaining: std::array::from_fn(|_| r.number()),
    }
}
