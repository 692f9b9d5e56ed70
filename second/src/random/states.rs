//! Random states: reached by runs, and damaged ones.

use super::Random;
use crate::explore::most_live;
use crate::machine::*;
use crate::table::*;

/// A release set among the tasks whose wait is 0, often all or none.
pub fn releases(r: &mut Random, table: &Table, state: &State) -> u16 {
    let ready = (0..usize::from(table.n)).filter(|i| state.tasks[*i].wait == 0);
    let ready = ready.fold(0u16, |set, i| set | 1 << i);
    match r.below(4) {
        0 => ready,
        1 => 0,
        _ => ready & r.word() as u16,
    }
}

/// A state reached from opening at some clock by random releases, before any
/// miss; `ticks` ticks at most.
pub fn reached(r: &mut Random, table: &Table, ticks: usize) -> State {
    let near_wrap = 0u32.wrapping_sub(r.range(0, 20));
    let clock = if r.coin() { near_wrap } else { r.number() };
    let mut state = State::zeros(clock, Phase::Running);
    for _ in 0..r.below(ticks + 1) {
        let set = releases(r, table, &state);
        let next = tick_table(table, &state, set);
        if next.answer.number != 0 {
            break;
        }
        state = next.state;
    }
    state
}

/// A state that fits, reached or not: any fitting number in every field.
pub fn fitting(r: &mut Random, table: &Table) -> State {
    let mut state = State::zeros(r.number(), Phase::Running);
    if r.one_in(12) {
        state.phase = Phase::Stopped(r.below(usize::from(table.n)) as u8);
        return state;
    }
    for i in 0..usize::from(table.n) {
        let nothing = table.costs_of(i).iter().all(|cost| *cost == 0);
        let most = if nothing {
            0
        } else {
            most_live(&table.tasks[i])
        };
        put_jobs(r, table, i, most, &mut state);
    }
    state
}

/// Up to so many live jobs of a task, each at least T after the one before, and
/// a wait that goes with them.
fn put_jobs(r: &mut Random, table: &Table, i: usize, most: usize, state: &mut State) {
    let task = &table.tasks[i];
    let count = if r.one_in(3) { 0 } else { r.below(most + 1) };
    let mut left = 1;
    for age in 0..count {
        let later = (count - 1 - age) as u32 * task.period;
        let last = task.deadline - 1 - later;
        left = if r.one_in(3) {
            left
        } else {
            r.range(left, last)
        };
        let rest = some_work(r, table, i);
        state.put_job(i, age, state.clock.wrapping_add(left), &rest);
        left += task.period;
    }
    // By now this is T more than the newest has left.
    let least = if count > 0 {
        left.saturating_sub(task.deadline)
    } else {
        0
    };
    let any = r.range(least, task.period - 1);
    state.tasks[i].wait = if r.coin() { least } else { any };
}

/// Work done on a job in any order that the edges allow, not all of it.
fn some_work(r: &mut Random, table: &Table, i: usize) -> [u32; ENTRIES] {
    let mut rest = *table.costs_of(i);
    let v = usize::from(table.tasks[i].v);
    for _ in 0..r.below(3 * v) {
        let h = r.below(v);
        let free = held_back(&table.tasks[i], &rest) >> h & 1 == 0;
        let others = (0..v).any(|p| p != h && rest[p] > 0);
        if free && rest[h] > 0 {
            let low = u32::from(!others);
            let any = r.range(low, rest[h]);
            rest[h] = r.pick(&[low, any]);
        }
    }
    rest
}

/// A state with `changes` fields set to any number, or with a task's jobs in
/// other places; at times with every job's work made the sum of its remainings
/// again.
pub fn damaged_state(r: &mut Random, base: &State, changes: usize) -> State {
    let mut state = *base;
    for _ in 0..changes {
        let i = r.below_either(3, ENTRIES);
        let age = r.below_either(1, AGES);
        match r.below(4) {
            0 => damage_task(r, &mut state, i, age),
            1 => displace(r, &mut state, i, age),
            2 => damage_work(r, &mut state, i, age),
            _ => match r.below(3) {
                0 => state.clock = state.clock.wrapping_add(by_one(r)),
                1 => state.phase = Phase::Stopped(r.number() as u8),
                _ => state.phase = Phase::Running,
            },
        }
    }
    if r.coin() {
        state.sum_up();
    }
    state
}

/// One more, one less or neither.
fn by_one(r: &mut Random) -> u32 {
    r.range(0, 2).wrapping_sub(1)
}

/// Another wait or deadline: near, any, or none.
fn damage_task(r: &mut Random, state: &mut State, i: usize, age: usize) {
    let near = by_one(r);
    let task = &mut state.tasks[i];
    let deadline = task.deadlines[age].unwrap_or(state.clock);
    match r.below(6) {
        0 => task.wait = r.number(),
        1 => task.wait = task.wait.wrapping_add(near),
        2 => task.deadlines[age] = None,
        3 => task.deadlines[age] = Some(deadline),
        // Also a job too near to the one before or behind it by one tick.
        _ => task.deadlines[age] = Some(deadline.wrapping_add(near)),
    }
}

/// A gap, a job in another's place, or two that change places.
fn displace(r: &mut Random, state: &mut State, i: usize, age: usize) {
    let other = r.below(AGES);
    let (deadline, rest) = (state.tasks[i].deadlines[other], *state.rest(i, other));
    match r.below(4) {
        0 => state.clear_job(i, age),
        1 => state.copy_job(i, age, other),
        2 => {
            state.copy_job(i, age, other);
            state.clear_job(i, age);
        }
        _ => {
            state.copy_job(i, age, other);
            state.set_job(i, age, deadline, &rest);
        }
    }
}

/// Another number for what remains of a vertex, or for a job's stored work.
fn damage_work(r: &mut Random, state: &mut State, i: usize, age: usize) {
    let near = by_one(r);
    let job = job_at(i, age);
    let at = ENTRIES * job + r.below_either(3, ENTRIES);
    match r.below(4) {
        0 => state.remaining[at] = state.remaining[at].wrapping_add(near),
        1 => state.work[job] = state.work[job].wrapping_add_signed(i64::from(near as i32)),
        2 => state.work[job] = u64::from(r.number()),
        _ => state.remaining[at] = r.number(),
    }
}
