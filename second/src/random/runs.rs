//! Random runs: a table, a clock and release sets, legal ones and others.

use super::*;
use crate::machine::{open, tick, Phase};
use crate::table::Table;
use crate::watch::Run;

/// A clock: 0, any, or so near the wrap that a run crosses it.
fn clock(r: &mut Random) -> u32 {
    match r.below(3) {
        0 => r.range(0, 20),
        1 => r.number(),
        _ => r.range(0, 20).wrapping_neg(),
    }
}

/// A table that runs well or ill in few ticks, or any other.
fn any_table(r: &mut Random) -> Table {
    match r.below(8) {
        0 | 1 => tiny_table(r, true),
        2 => tiny_table(r, false),
        3 => {
            let (n, most) = (r.below(4) + 1, r.below(4) + 1);
            let scale = r.range(4, 30);
            near_edge(r, n, most, scale)
        }
        4 => table_sized(r, 16, 3),
        5 | 6 => long_table(r),
        _ => table(r),
    }
}

/// A run of at most `most` ticks. Mostly tasks are named that may be; now and
/// then one that must wait, or a number that no task has. A machine that has
/// stopped is asked a few times more.
pub fn run(r: &mut Random, most: usize) -> Run {
    let table = any_table(r);
    let mut run = Run {
        table: file(&table),
        clock: clock(r),
        releases: Vec::new(),
    };
    let mut state = open(&run.table, run.clock).state;
    let (eager, wrong) = (r.below(4) + 1, r.pick(&[0, 5, 20]));
    let mut after = 0;
    for _ in 0..r.below(most + 1) {
        let mut set = 0;
        for i in 0..usize::from(table.n) {
            let may = state.tasks[i].wait == 0;
            if may && r.one_in(eager) || wrong > 0 && r.one_in(wrong * 2) {
                set |= 1 << i;
            }
        }
        if wrong > 0 && r.one_in(wrong) {
            set = r.word() as u16;
        }
        run.releases.push(set);
        state = tick(&run.table, &state, set).state;
        if state.phase != Phase::Running {
            after += 1;
        }
        if after > 2 {
            break;
        }
    }
    run
}

/// The input of a run; at times damaged, too long a table, cut short at any
/// place, with a wrong length, or with a byte too many.
pub fn run_input(r: &mut Random, most: usize) -> Vec<u8> {
    let mut run = run(r, most);
    if r.one_in(8) {
        damage(r, &mut run.table);
    }
    if r.one_in(30) {
        let length = r.pick(&[5_060, 5_061, 5_062, 9_000, 65_535]);
        run.table.resize(length, r.byte());
    }
    let mut input = run.input();
    match r.below(16) {
        0 => input.truncate(r.below(input.len() + 1)),
        1 => input.truncate(r.below(12).min(input.len())),
        2 => input.push(r.byte()),
        3 => {
            let at = r.below(2);
            input[at] = r.byte();
        }
        4 => input[1] ^= 0x40,
        _ => {}
    }
    input
}
