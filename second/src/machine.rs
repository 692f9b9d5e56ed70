//! The tick machine: states, opening, what fits, and the tick.

mod available;
mod fits;
mod places;
mod state;

pub use available::*;
pub use fits::*;
pub use places::*;
pub use state::*;

use crate::reader::read;
use crate::table::*;
use crate::verdict::NO_TASK;

#[derive(Clone, Copy, PartialEq, Eq, Debug)]
pub struct Opened {
    pub number: u8,
    pub place: usize,
    pub task: u8,
    pub state: State,
}

/// What a tick says besides the next state.
#[derive(Clone, Copy, PartialEq, Eq, Debug)]
pub struct Answer {
    pub number: u8,
    pub place: usize,
    pub task: u8,
    pub ran: RunList,
    pub finished: u16,
}

#[derive(Clone, Copy, PartialEq, Eq, Debug)]
pub struct Ticked {
    pub answer: Answer,
    pub state: State,
}

/// Opens the machine for a table's bytes at any clock.
pub fn open(bytes: &[u8], clock: u32) -> Opened {
    let found = read(bytes);
    let state = if found.number == 0 {
        State::zeros(clock, Phase::Running)
    } else {
        State::zeros(0, Phase::Stopped(NO_TASK))
    };
    Opened {
        number: found.number,
        place: found.place,
        task: NO_TASK,
        state,
    }
}

/// One tick; bit i of `releases` names task i.
pub fn tick(bytes: &[u8], state: &State, releases: u16) -> Ticked {
    let found = read(bytes);
    if found.number != 0 {
        return refused(state, found.number, found.place, NO_TASK);
    }
    tick_table(&found.table, state, releases)
}

/// The same tick on a state that the caller keeps.
pub fn tick_in_place(bytes: &[u8], state: &mut State, releases: u16) -> Answer {
    let ticked = tick(bytes, state, releases);
    *state = ticked.state;
    ticked.answer
}

/// The tick for a table that the reader gave.
pub fn tick_table(table: &Table, state: &State, releases: u16) -> Ticked {
    if !fits(table, state) {
        return refused(state, 30, 0, NO_TASK);
    }
    if state.phase != Phase::Running {
        return refused(state, 32, 0, NO_TASK);
    }
    if let Some(task) = lowest(releases, |i| i >= usize::from(table.n)) {
        return refused(state, 31, 0, task);
    }
    if let Some(task) = lowest(releases, |i| state.tasks[i].wait > 0) {
        return refused(state, 33, 0, task);
    }
    let before = release(table, state, releases);
    let ranked = rank(table, &before);
    let mut ran = [NO_VERTEX; 8];
    let chosen = ranked.first(usize::from(table.m));
    for (place, entry) in ran.iter_mut().zip(chosen) {
        *place = vertex_of(*entry);
    }
    let moved = go_on(table, &before, releases, &ran[..chosen.len()]);
    let missed = moved.missed.is_some();
    Ticked {
        answer: Answer {
            number: if missed { 34 } else { 0 },
            place: 0,
            task: moved.missed.unwrap_or(NO_TASK),
            ran,
            finished: moved.finished,
        },
        state: moved.state,
    }
}

fn refused(state: &State, number: u8, place: usize, task: u8) -> Ticked {
    Ticked {
        answer: Answer {
            number,
            place,
            task,
            ran: [NO_VERTEX; 8],
            finished: 0,
        },
        state: *state,
    }
}

fn lowest(releases: u16, bad: impl Fn(usize) -> bool) -> Option<u8> {
    (0..ENTRIES)
        .find(|i| releases >> i & 1 == 1 && bad(*i))
        .map(|i| i as u8)
}

/// Step 1: each named task has one more live job, its costs remaining. The
/// waits stay for step 4.
pub fn release(table: &Table, state: &State, releases: u16) -> State {
    release_by(table, state, releases, OLDEST_FIRST)
}

/// The same by any way of keeping jobs.
pub fn release_by(table: &Table, state: &State, releases: u16, keeping: Keeping) -> State {
    let mut next = *state;
    for i in (0..usize::from(table.n)).filter(|i| releases >> i & 1 == 1) {
        let deadline = state.clock.wrapping_add(table.tasks[i].deadline);
        let age = (keeping.make_room)(&mut next, i);
        next.put_job(i, age, deadline, table.costs_of(i));
    }
    next
}

/// What steps 4 to 6 give: the next state, the tasks finished, and the
/// lowest task that missed.
pub struct Moved {
    pub state: State,
    pub finished: u16,
    pub missed: Option<u8>,
}

/// Steps 4 to 6, after the releases and with the vertices that run.
pub fn go_on(table: &Table, released: &State, releases: u16, ran: &[Vertex]) -> Moved {
    go_on_by(table, released, releases, ran, OLDEST_FIRST)
}

/// The same by any way of keeping jobs.
pub fn go_on_by(
    table: &Table,
    released: &State,
    releases: u16,
    ran: &[Vertex],
    keeping: Keeping,
) -> Moved {
    let mut next = *released;
    next.clock = released.clock.wrapping_add(1);
    for vertex in ran {
        next.remaining[rest_at(*vertex)] -= 1;
        next.work[rest_at(*vertex) / ENTRIES] -= 1;
    }
    let mut finished = 0;
    let mut missed = None;
    for i in 0..usize::from(table.n) {
        next.tasks[i].wait = if releases >> i & 1 == 1 {
            table.tasks[i].period - 1
        } else {
            released.tasks[i].wait.saturating_sub(1)
        };
        finished |= u16::from(end_jobs(&mut next, i, keeping)) << i;
        if next.tasks[i].deadlines.contains(&Some(next.clock)) {
            missed = missed.or(Some(i as u8));
        }
    }
    if let Some(task) = missed {
        next = State::zeros(next.clock, Phase::Stopped(task));
    }
    Moved {
        state: next,
        finished,
        missed,
    }
}

/// Step 5: takes out a task's jobs of which nothing remains; whether there was
/// one. The newest goes first, for an end moves those behind it.
fn end_jobs(state: &mut State, task: usize, keeping: Keeping) -> bool {
    let mut any = false;
    for age in (0..AGES).rev() {
        let live = state.tasks[task].deadlines[age].is_some();
        if live && state.work[job_at(task, age)] == 0 {
            (keeping.give_up)(state, task, age);
            any = true;
        }
    }
    any
}
