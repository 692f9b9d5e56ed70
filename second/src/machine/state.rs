//! A state: the clock, each task's wait and its live jobs.

use crate::table::*;

#[derive(Clone, Copy, PartialEq, Eq, Debug)]
pub enum Phase {
    Running,
    /// Stopped at this task.
    Stopped(u8),
}

/// A task's wait, and the deadlines of its jobs by age place.
#[derive(Clone, Copy, PartialEq, Eq, Debug)]
pub struct TaskState {
    /// Ticks before the task may be named again.
    pub wait: u32,
    /// Oldest first; none where there is no job.
    pub deadlines: [Option<u32>; AGES],
}

impl TaskState {
    pub const ZERO: TaskState = TaskState::idle(0);

    /// No live job.
    pub const fn idle(wait: u32) -> TaskState {
        TaskState {
            wait,
            deadlines: [None; AGES],
        }
    }

    /// The live jobs: age place and deadline.
    pub fn jobs(&self) -> impl Iterator<Item = (usize, u32)> + '_ {
        let each = self.deadlines.iter().enumerate();
        each.filter_map(|(age, deadline)| deadline.map(|deadline| (age, deadline)))
    }

    pub fn is_idle(&self) -> bool {
        self.jobs().next().is_none()
    }
}

/// A state. Any number may stand in any field; `fits` says what is sound.
#[derive(Clone, Copy, PartialEq, Eq, Debug)]
pub struct State {
    pub clock: u32,
    pub phase: Phase,
    pub tasks: [TaskState; ENTRIES],
    /// What remains of vertex h of task i's job at age place a stands at
    /// 256 a + 16 i + h.
    pub remaining: [u32; AGES * ROW],
    /// The work left of each job, the sum of its remainings, at 16 a + i.
    pub work: [u64; AGES * ENTRIES],
}

/// The number of a job's place in `work`, and of its sixteen in `remaining`.
pub fn job_at(task: usize, age: usize) -> usize {
    ENTRIES * age + task
}

impl State {
    /// Zeros all round but for clock and phase.
    pub const fn zeros(clock: u32, phase: Phase) -> State {
        State {
            clock,
            phase,
            tasks: [TaskState::ZERO; ENTRIES],
            remaining: [0; AGES * ROW],
            work: [0; AGES * ENTRIES],
        }
    }

    /// What remains of each vertex of a job.
    pub fn rest(&self, task: usize, age: usize) -> &[u32; ENTRIES] {
        sixteen(&self.remaining, job_at(task, age))
    }

    /// The ticks left before a deadline, wrapped.
    pub fn left(&self, deadline: u32) -> u32 {
        deadline.wrapping_sub(self.clock)
    }

    /// Puts a job at an age place, its work what these remainings sum up to.
    pub fn put_job(&mut self, task: usize, age: usize, deadline: u32, rest: &[u32; ENTRIES]) {
        self.set_job(task, age, Some(deadline), rest);
    }

    /// Leaves an age place without a job.
    pub fn clear_job(&mut self, task: usize, age: usize) {
        self.set_job(task, age, None, &[0; ENTRIES]);
    }

    /// Puts what stands at one age place of a task at another one.
    pub fn copy_job(&mut self, task: usize, from: usize, to: usize) {
        let rest = *self.rest(task, from);
        self.set_job(task, to, self.tasks[task].deadlines[from], &rest);
    }

    /// A job or none at an age place, and these remainings there.
    pub fn set_job(
        &mut self,
        task: usize,
        age: usize,
        deadline: Option<u32>,
        rest: &[u32; ENTRIES],
    ) {
        let at = job_at(task, age);
        self.tasks[task].deadlines[age] = deadline;
        self.remaining[ENTRIES * at..][..ENTRIES].copy_from_slice(rest);
        self.work[at] = summed(rest);
    }

    /// Every job's work made the sum of its remainings.
    pub fn sum_up(&mut self) {
        self.work = std::array::from_fn(|at| summed(sixteen(&self.remaining, at)));
    }
}

/// All the work that a row of sixteen numbers stands for.
pub fn summed(row: &[u32; ENTRIES]) -> u64 {
    row.iter().map(|ticks| u64::from(*ticks)).sum()
}

/// Task, age place and vertex.
pub type Vertex = (u8, u8, u8);
/// Where no vertex ran.
pub const NO_VERTEX: Vertex = (255, 255, 255);
pub type RunList = [Vertex; 8];

/// A vertex's place in `remaining`.
pub fn rest_at((task, age, vertex): Vertex) -> usize {
    ENTRIES * job_at(usize::from(task), usize::from(age)) + usize::from(vertex)
}
