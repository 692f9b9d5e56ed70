//! Which vertices are available, and their rank.

use super::{State, Vertex};
use crate::table::*;

/// Available vertices in rank order, each as one number: ticks left, task, age
/// place and vertex from the high end down.
pub struct Ranked {
    entries: Vec<u64>,
}

impl Ranked {
    pub fn all(&self) -> &[u64] {
        &self.entries
    }

    /// The first m, or all if fewer.
    pub fn first(&self, m: usize) -> &[u64] {
        &self.entries[..self.entries.len().min(m)]
    }
}

fn entry_of(left: u32, (task, age, vertex): Vertex) -> u64 {
    u64::from(left) << 24 | u64::from(task) << 16 | u64::from(age) << 8 | u64::from(vertex)
}

pub fn vertex_of(entry: u64) -> Vertex {
    ((entry >> 16) as u8, (entry >> 8) as u8, entry as u8)
}

pub fn left_of(entry: u64) -> u32 {
    (entry >> 24) as u32
}

/// Which vertices of a job wait for a direct predecessor.
pub type Held = fn(&Task, &[u32; ENTRIES]) -> u16;

/// Steps 2 and 3: what is available, fully sorted.
pub fn rank(table: &Table, state: &State) -> Ranked {
    rank_by(table, state, held_back)
}

/// The same by any rule of what waits.
pub fn rank_by(table: &Table, state: &State, held_back: Held) -> Ranked {
    let mut entries = Vec::with_capacity(ENTRIES);
    for i in 0..usize::from(table.n) {
        for (age, deadline) in state.tasks[i].jobs() {
            let rest = state.rest(i, age);
            let held = held_back(&table.tasks[i], rest);
            let used = &rest[..usize::from(table.tasks[i].v)];
            let free = |h: &usize| used[*h] > 0 && held >> h & 1 == 0;
            let vertex = |h: usize| (i as u8, age as u8, h as u8);
            let left = state.left(deadline);
            let found = (0..used.len()).filter(free);
            entries.extend(found.map(|h| entry_of(left, vertex(h))));
        }
    }
    entries.sort_unstable();
    Ranked { entries }
}

/// The vertices that are not done. "A vertex is done when nothing of it
/// remains and all its direct predecessors are done" (document 02, M-103); so
/// those with something remaining, and on from them along the edges.
pub fn not_done(task: &Task, remaining: &[u32; ENTRIES]) -> u16 {
    let v = usize::from(task.v);
    let some = (0..v).filter(|h| remaining[*h] > 0);
    let mut open: u16 = some.fold(0, |open, h| open | 1 << h);
    let mut todo = open;
    while todo != 0 {
        let next = task.succ[todo.trailing_zeros() as usize] & !open;
        todo &= todo - 1;
        todo |= next;
        open |= next;
    }
    open
}

/// The direct successors of a set of vertices.
fn successors(task: &Task, mut set: u16) -> u16 {
    let mut to = 0;
    while set != 0 {
        to |= task.succ[set.trailing_zeros() as usize];
        set &= set - 1;
    }
    to
}

/// The vertices that have a direct predecessor not done.
pub fn held_back(task: &Task, remaining: &[u32; ENTRIES]) -> u16 {
    successors(task, not_done(task, remaining))
}

/// The error that looks right: those with a direct predecessor of which
/// something remains. A join of cost 0 then lets its successors go while a
/// branch before it still runs.
pub fn held_by_remaining(task: &Task, remaining: &[u32; ENTRIES]) -> u16 {
    let some = (0..ENTRIES).filter(|h| remaining[*h] > 0);
    successors(task, some.fold(0, |set, h| set | 1 << h))
}
