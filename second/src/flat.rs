//! A state as programs in C hold it: bytes and numbers where the machine has enums, laid out as the C face's, without a byte left over.

use crate::machine::{Answer, Opened, Phase, State, TaskState, Ticked, NO_VERTEX};
use crate::reader::read;
use crate::table::{AGES, ENTRIES, ROW};
use crate::verdict::NO_TASK;

#[repr(C)]
#[derive(Clone, Copy, PartialEq, Eq, Debug)]
pub struct FlatTask {
    pub wait: u32,
    /// By age place; 0 where there is no job.
    pub deadline: [u32; AGES],
    /// 1 for a live job, 0 for none.
    pub live: [u8; AGES],
}

/// Any number may stand in any field; `state` says which are states.
#[repr(C)]
#[derive(Clone, Copy, PartialEq, Eq, Debug)]
pub struct FlatState {
    /// At 16 times age place plus task.
    pub work: [u64; AGES * ENTRIES],
    pub clock: u32,
    /// 0 for running, 1 for stopped.
    pub stopped: u8,
    /// 0 where the state runs.
    pub at: u8,
    /// Zeros.
    pub pad: [u8; 2],
    pub tasks: [FlatTask; ENTRIES],
    /// At 256 times age place plus 16 times task plus vertex.
    pub remaining: [u32; AGES * ROW],
}

impl From<&State> for FlatState {
    fn from(state: &State) -> FlatState {
        let (stopped, at) = match state.phase {
            Phase::Running => (0, 0),
            Phase::Stopped(task) => (1, task),
        };
        FlatState {
            work: state.work,
            clock: state.clock,
            stopped,
            at,
            pad: [0; 2],
            tasks: state.tasks.map(flat_task),
            remaining: state.remaining,
        }
    }
}

fn flat_task(task: TaskState) -> FlatTask {
    FlatTask {
        wait: task.wait,
        deadline: task.deadlines.map(|deadline| deadline.unwrap_or(0)),
        live: task.deadlines.map(|deadline| u8::from(deadline.is_some())),
    }
}

impl FlatTask {
    fn task(&self) -> Option<TaskState> {
        let mut task = TaskState::idle(self.wait);
        let places = self.live.iter().zip(&self.deadline);
        for (deadline, place) in task.deadlines.iter_mut().zip(places) {
            *deadline = match place {
                (0, 0) => None,
                (1, deadline) => Some(*deadline),
                _ => return None,
            };
        }
        Some(task)
    }
}

impl FlatState {
    /// The state that this stands for, if every such byte is 0 or 1 and no number stands where the state has none.
    pub fn state(&self) -> Option<State> {
        let phase = match (self.stopped, self.at, self.pad) {
            (0, 0, [0, 0]) => Phase::Running,
            (1, task, [0, 0]) => Phase::Stopped(task),
            _ => return None,
        };
        let mut state = State::zeros(self.clock, phase);
        for (task, flat) in state.tasks.iter_mut().zip(&self.tasks) {
            *task = flat.task()?;
        }
        state.remaining = self.remaining;
        state.work = self.work;
        Some(state)
    }
}

#[derive(Clone, Copy, PartialEq, Eq, Debug)]
pub struct FlatOpened {
    pub number: u8,
    pub task: u8,
    pub place: usize,
    pub state: FlatState,
}

#[derive(Clone, Copy, PartialEq, Eq, Debug)]
pub struct FlatTicked {
    pub answer: Answer,
    pub state: FlatState,
}

pub fn open(bytes: &[u8], clock: u32) -> FlatOpened {
    let Opened {
        number,
        place,
        task,
        state,
    } = crate::machine::open(bytes, clock);
    FlatOpened {
        number,
        task,
        place,
        state: FlatState::from(&state),
    }
}

/// The machine's tick; what is no state fits no table.
pub fn tick(bytes: &[u8], flat: &FlatState, releases: u16) -> FlatTicked {
    let Some(state) = flat.state() else {
        return no_state(bytes, flat);
    };
    let Ticked { answer, state } = crate::machine::tick(bytes, &state, releases);
    FlatTicked {
        answer,
        state: FlatState::from(&state),
    }
}

/// Reading's numbers come first, then 30; the same state back.
fn no_state(bytes: &[u8], flat: &FlatState) -> FlatTicked {
    let found = read(bytes);
    let answer = Answer {
        number: if found.number == 0 { 30 } else { found.number },
        place: found.place,
        task: NO_TASK,
        ran: [NO_VERTEX; 8],
        finished: 0,
    };
    FlatTicked {
        answer,
        state: *flat,
    }
}
