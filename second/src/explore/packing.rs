//! A state of a small table as one number.

use super::Times;
use crate::machine::{job_at, Phase, State};
use crate::table::*;

/// The clock of every unpacked state: three ticks before the clock's round
/// ends, so that deadlines wrap.
pub const CLOCK: u32 = u32::MAX - 2;

/// A packed state.
pub type Key = u128;

/// The age places that a task can need between ticks, and the bits that each
/// number takes.
#[derive(Clone, Debug)]
struct Widths {
    wait: u32,
    ages: usize,
    left: u32,
    remaining: Vec<u32>,
}

impl Widths {
    fn of(table: &Table, times: Times, i: usize) -> Widths {
        let task = &table.tasks[i];
        let costs = &table.costs_of(i)[..usize::from(task.v)];
        Widths {
            wait: bits(task.period - 1),
            ages: most_live(task),
            left: bits(task.deadline - 1),
            remaining: costs.iter().map(|cost| bits(times.most(*cost))).collect(),
        }
    }

    fn all(&self) -> u32 {
        let job = self.left + self.remaining.iter().sum::<u32>();
        self.wait + self.ages as u32 * job
    }
}

fn bits(most: u32) -> u32 {
    u32::BITS - most.leading_zeros()
}

/// The live jobs that a task can have between ticks: they have from 1 to D - 1
/// ticks left, each next one T more.
pub fn most_live(task: &Task) -> usize {
    match task.deadline {
        1 => 0,
        deadline => ((deadline - 2) / task.period) as usize + 1,
    }
}

/// How the states of a table are packed, deadlines as ticks left (0 without a
/// job): each number has just the bits that its largest value takes.
#[derive(Clone, Debug)]
pub struct Packing {
    tasks: Vec<Widths>,
}

impl Packing {
    /// None for a table whose states don't go into a key.
    pub fn of(table: &Table, times: Times) -> Option<Packing> {
        let tasks = (0..usize::from(table.n)).map(|i| Widths::of(table, times, i));
        let tasks: Vec<_> = tasks.collect();
        let all: u32 = tasks.iter().map(Widths::all).sum();
        (all <= Key::BITS).then_some(Packing { tasks })
    }

    /// The number of a state that a run of the table reaches.
    pub fn pack(&self, state: &State) -> Key {
        let mut key = 0;
        let mut put = |number: u32, width: u32| {
            debug_assert!(u64::from(number) < 1 << width);
            key = key << width | Key::from(number);
        };
        for (i, task) in self.tasks.iter().enumerate() {
            put(state.tasks[i].wait, task.wait);
            for age in 0..task.ages {
                let deadline = state.tasks[i].deadlines[age];
                put(deadline.map_or(0, |at| state.left(at)), task.left);
                let row = state.rest(i, age).iter().zip(&task.remaining);
                row.for_each(|(rest, width)| put(*rest, *width));
            }
        }
        key
    }

    /// The state of a number, at `CLOCK`.
    pub fn unpack(&self, mut key: Key) -> State {
        let mut state = State::zeros(CLOCK, Phase::Running);
        let mut take = |width: u32| {
            let number = key & ((1 << width) - 1);
            key >>= width;
            number as u32
        };
        for (i, task) in self.tasks.iter().enumerate().rev() {
            for age in (0..task.ages).rev() {
                let at = job_at(i, age);
                for (h, width) in task.remaining.iter().enumerate().rev() {
                    let rest = take(*width);
                    state.remaining[ENTRIES * at + h] = rest;
                    state.work[at] += u64::from(rest);
                }
                let left = take(task.left);
                state.tasks[i].deadlines[age] = (left > 0).then(|| CLOCK.wrapping_add(left));
            }
            state.tasks[i].wait = take(task.wait);
        }
        state
    }
}
