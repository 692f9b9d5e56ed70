//! Which states fit a table.

use super::{held_back, job_at, summed, Phase, State, TaskState};
use crate::table::*;

/// Whether a wait is sound beside T - D plus the ticks left of the newest live
/// job, which may be negative.
type WaitRule = fn(wait: i64, least: i64) -> bool;

fn at_least(wait: i64, least: i64) -> bool {
    wait >= least
}

/// Whether a state fits a table that the reader gave.
pub fn fits(table: &Table, state: &State) -> bool {
    fits_by(table, state, at_least, work_fits)
}

/// The same but for what remains of each job: what still holds where steps
/// take times of their own.
pub fn fits_but_for_work(table: &Table, state: &State) -> bool {
    fits_by(table, state, at_least, |_, _, _, _| true)
}

/// An error that looks right: the wait of a live task told by its newest job.
/// Once that has lived for T ticks the bound falls below 0 and the wait stays.
pub fn fits_with_equal_wait(table: &Table, state: &State) -> bool {
    fits_by(table, state, |wait, least| wait == least, work_fits)
}

/// The same with 0 where the bound is negative. A job never overtakes an older
/// one of its task, so this holds with stated costs; it does not where the one
/// released last may end early and an older one go on.
pub fn fits_with_wait_told(table: &Table, state: &State) -> bool {
    fits_by(
        table,
        state,
        |wait, least| wait == least.max(0),
        |_, _, _, _| true,
    )
}

/// Whether what remains of a live job, by task and age place, is sound.
type WorkRule = fn(table: &Table, state: &State, i: usize, age: usize) -> bool;

fn fits_by(table: &Table, state: &State, wait: WaitRule, work: WorkRule) -> bool {
    let n = usize::from(table.n);
    match state.phase {
        Phase::Stopped(task) => {
            task < table.n && *state == State::zeros(state.clock, Phase::Stopped(task))
        }
        Phase::Running => {
            let unused = |i: usize| {
                state.tasks[i] == TaskState::ZERO && (0..AGES).all(|age| nothing_at(state, i, age))
            };
            (n..ENTRIES).all(unused)
                && (0..n).all(|i| {
                    places_fit(&table.tasks[i], state, i, wait)
                        && (0..AGES).all(|age| match state.tasks[i].deadlines[age] {
                            Some(_) => work(table, state, i, age),
                            None => nothing_at(state, i, age),
                        })
                })
        }
    }
}

/// Whether nothing remains at a task's age place.
fn nothing_at(state: &State, i: usize, age: usize) -> bool {
    state.work[job_at(i, age)] == 0 && *state.rest(i, age) == [0; ENTRIES]
}

/// The wait and the deadlines of a task: live places first, ticks left from 1
/// to D - 1, each next deadline at least T after the one before.
fn places_fit(task: &Task, state: &State, i: usize, sound: WaitRule) -> bool {
    let kept = &state.tasks[i];
    let [deadline, period, wait] = [task.deadline, task.period, kept.wait].map(i64::from);
    // The ticks left of the live job before.
    let mut newest = None;
    for (place, (age, at)) in kept.jobs().enumerate() {
        let left = i64::from(state.left(at));
        let apart = newest.is_none_or(|before| left - before >= period);
        if age != place || !(1..deadline).contains(&left) || !apart {
            return false;
        }
        newest = Some(left);
    }
    wait < period && newest.is_none_or(|left| sound(wait, period - deadline + left))
}

/// What remains of a live job, and its stored sum.
fn work_fits(table: &Table, state: &State, i: usize, age: usize) -> bool {
    let (task, rest) = (&table.tasks[i], state.rest(i, age));
    // Costs from v on are zero, so this holds the unused entries too.
    let costs = table.costs_of(i);
    let within = (0..ENTRIES).all(|h| rest[h] <= costs[h]);
    let some = rest.iter().any(|r| *r > 0);
    let held = held_back(task, rest);
    let whole = (0..usize::from(task.v)).all(|h| held >> h & 1 == 0 || rest[h] == costs[h]);
    state.work[job_at(i, age)] == summed(rest) && within && some && whole
}
