//! Runs of the machine that are measured: each table has its own, from opening on, and a tick goes on from the state before.

use crate::plain;
use compare::face;
use second::flat::FlatState;
use second::{State, Table};
use std::hint::black_box;

/// How many of a table's tasks are released, each whenever it may be.
#[derive(Clone, Copy)]
pub enum Load {
    One,
    All,
}

impl Load {
    pub fn name(self) -> &'static str {
        match self {
            Load::One => "one task",
            Load::All => "all tasks",
        }
    }

    fn tasks(self, table: &Table) -> usize {
        match self {
            Load::One => 1,
            Load::All => usize::from(table.n),
        }
    }
}

/// Tables and their files, with the state that each run has come to.
pub struct Runs<'a, S> {
    files: &'a [Vec<u8>],
    tasks: Vec<usize>,
    states: Vec<S>,
}

/// The tasks below a number that need not wait, as a set.
fn ready(tasks: usize, wait: impl Fn(usize) -> u32) -> u16 {
    let ready = (0..tasks).filter(|i| wait(*i) == 0);
    ready.fold(0, |set, i| set | 1 << i)
}

impl<'a, S> Runs<'a, S> {
    /// Runs of these tables and their files from these states on.
    pub fn new(files: &'a [Vec<u8>], tables: &[Table], load: Load, states: Vec<S>) -> Runs<'a, S> {
        Runs {
            files,
            tasks: tables.iter().map(|table| load.tasks(table)).collect(),
            states,
        }
    }
}

/// States as the C face has them.
pub fn flat(states: &[State]) -> Vec<face::State> {
    states.iter().map(FlatState::from).collect()
}

impl Runs<'_, face::State> {
    /// A tick that takes the state and gives the next one back.
    pub fn tick_by_value(&mut self, k: usize) {
        let state = &mut self.states[k];
        let releases = ready(self.tasks[k], |i| state.tasks[i].wait);
        *state = face::tick(&self.files[k], *state, releases).state;
    }

    /// The same where the state stands.
    pub fn tick_in_place(&mut self, k: usize) {
        let state = &mut self.states[k];
        let releases = ready(self.tasks[k], |i| state.tasks[i].wait);
        black_box(face::tick_in_place(state, &self.files[k], releases));
    }

    /// The same by plain C.
    pub fn tick_plain(&mut self, k: usize) {
        let state = &mut self.states[k];
        let releases = ready(self.tasks[k], |i| state.tasks[i].wait);
        black_box(plain::tick(&self.files[k], state, releases));
    }
}

impl Runs<'_, State> {
    pub fn tick(&mut self, k: usize) {
        let state = &mut self.states[k];
        let releases = ready(self.tasks[k], |i| state.tasks[i].wait);
        *state = second::tick(&self.files[k], state, releases).state;
    }

    /// Whether all runs have come to the same states, none of them stopped.
    pub fn agree(&self, ours: &Runs<face::State>) -> bool {
        let same = |(a, b): (&State, &face::State)| FlatState::from(a) == *b && b.stopped == 0;
        self.states.iter().zip(&ours.states).all(same)
    }
}
