//! The table in memory, its marks and its ranges.

/// Entries for tasks, used or not; also the entries for vertices of a task.
pub const ENTRIES: usize = 16;
/// Length of the row of costs: sixteen a task.
pub const ROW: usize = ENTRIES * ENTRIES;
/// The live jobs that a task can have, and how many times T its D can be
/// (document 02, M-109).
pub const AGES: usize = 4;
/// The largest file in bytes.
pub const LARGEST: usize = 5_060;

pub const TABLE_MARK: [u8; 2] = [0x54, 0x42];
pub const TASK_MARK: [u8; 2] = [0x54, 0x4B];

pub const MOST_PROCESSORS: u8 = 8;
pub const MOST_TASKS: u8 = 16;
pub const MOST_VERTICES: u8 = 16;
pub const MOST_EDGES: u32 = 120;
/// D and T lie from 1 to this many ticks, a cost from 0 (document 02, M-103).
pub const MOST_TICKS: u32 = 1_000_000;

/// One task's entry. The costs stand in the table's row.
#[derive(Clone, Copy, PartialEq, Eq, Debug)]
pub struct Task {
    pub v: u8,
    pub deadline: u32,
    pub period: u32,
    /// Bit j of `succ[h]` is the edge from h to j.
    pub succ: [u16; ENTRIES],
}

impl Task {
    pub const ZERO: Task = Task {
        v: 0,
        deadline: 0,
        period: 0,
        succ: [0; ENTRIES],
    };
}

/// A table in memory. Any number may stand in any field; only the reader
/// promises that the rules hold.
#[derive(Clone, Copy, PartialEq, Eq, Debug)]
pub struct Table {
    pub m: u8,
    pub n: u8,
    pub tasks: [Task; ENTRIES],
    /// The cost of vertex h of task i stands at 16 i + h.
    pub costs: [u32; ROW],
}

impl Table {
    pub const ZERO: Table = Table {
        m: 0,
        n: 0,
        tasks: [Task::ZERO; ENTRIES],
        costs: [0; ROW],
    };

    /// The sixteen costs of a task, used or not.
    pub fn costs_of(&self, task: usize) -> &[u32; ENTRIES] {
        sixteen(&self.costs, task)
    }
}

/// A row's sixteen places with this number: a task's costs, or what remains of
/// a job.
pub fn sixteen(row: &[u32], at: usize) -> &[u32; ENTRIES] {
    row[ENTRIES * at..]
        .first_chunk()
        .expect("a row has sixteen places for each task or job")
}

/// A refusal on the way: number and place.
#[derive(Clone, Copy, PartialEq, Eq, Debug)]
pub struct Stop {
    pub number: u8,
    pub place: usize,
}

/// Goes on if the rule holds, else stops with this number at this place.
#[inline]
pub fn need(holds: bool, number: u8, place: usize) -> Result<(), Stop> {
    if holds {
        Ok(())
    } else {
        Err(Stop { number, place })
    }
}

/// Rule 4's range of D and T.
#[inline]
pub fn ticks_in_range(ticks: u32) -> bool {
    (1..=MOST_TICKS).contains(&ticks)
}

/// Rule 5, for D and T within their range: D is at most four times T.
#[inline]
pub fn deadline_in_range(deadline: u32, period: u32) -> bool {
    deadline <= AGES as u32 * period
}

/// The largest D that goes with a T.
pub fn most_deadline(period: u32) -> u32 {
    MOST_TICKS.min(AGES as u32 * period)
}

/// The smallest T that goes with a D.
pub fn least_period(deadline: u32) -> u32 {
    deadline.div_ceil(AGES as u32)
}

/// Rule 4's range of a cost.
#[inline]
pub fn cost_in_range(cost: u32) -> bool {
    cost <= MOST_TICKS
}
