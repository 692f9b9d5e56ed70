//! The writer: every table value and any buffer give a number and a place.

use crate::graph::{first, has_cycle};
use crate::table::*;

/// Writes a table's file at the front of the buffer. Gives 0 and the file's
/// length, or a refusal's number and place; a refusal writes nothing.
pub fn write(table: &Table, buffer: &mut [u8]) -> (u8, usize) {
    match write_checked(table, buffer) {
        Ok(length) => (0, length),
        Err(stop) => (stop.number, stop.place),
    }
}

/// The file's length, if the table has one; else 3 to 7, then 10.
pub fn length(table: &Table) -> Result<usize, Stop> {
    need((1..=MOST_PROCESSORS).contains(&table.m), 3, 2)?;
    need((1..=MOST_TASKS).contains(&table.n), 3, 3)?;
    let mut at = 4;
    for i in 0..usize::from(table.n) {
        at = check_task(&table.tasks[i], table.costs_of(i), at)?;
    }
    need(unused_zero(table), 10, 0)?;
    Ok(at)
}

fn write_checked(table: &Table, buffer: &mut [u8]) -> Result<usize, Stop> {
    let length = length(table)?;
    need(buffer.len() >= length, 9, length)?;
    let mut to = Pen { buffer, at: 0 };
    to.put(TABLE_MARK);
    to.put([table.m, table.n]);
    for i in 0..usize::from(table.n) {
        write_task(&table.tasks[i], table.costs_of(i), &mut to);
    }
    Ok(length)
}

/// The rules of one task whose record would begin at `mark`; gives the place
/// after the record.
fn check_task(task: &Task, costs: &[u32; ENTRIES], mark: usize) -> Result<usize, Stop> {
    need((1..=MOST_VERTICES).contains(&task.v), 3, mark + 2)?;
    let v = usize::from(task.v);
    let e = edges(task);
    need(e <= MOST_EDGES, 3, mark + 3)?;
    need(ticks_in_range(task.deadline), 4, mark + 4)?;
    need(ticks_in_range(task.period), 4, mark + 8)?;
    need(deadline_in_range(task.deadline, task.period), 5, mark + 8)?;
    for (h, cost) in costs[..v].iter().enumerate() {
        need(cost_in_range(*cost), 4, mark + 12 + 4 * h)?;
    }
    check_edges(task, mark + 12 + 4 * v)?;
    need(!has_cycle(&task.succ, v), 7, mark)?;
    Ok(mark + 12 + 4 * v + 2 * e as usize)
}

/// All successor bits of the first v vertices, bits at or past v included.
fn edges(task: &Task) -> u32 {
    let used = &task.succ[..usize::from(task.v)];
    used.iter().map(|row| row.count_ones()).sum()
}

/// Stops at the first bit that is no edge: an end not below v, or to itself.
fn check_edges(task: &Task, mut at: usize) -> Result<(), Stop> {
    let v = usize::from(task.v);
    for (h, row) in task.succ[..v].iter().enumerate() {
        let bad = row & (!first(v) | 1 << h);
        if bad != 0 {
            let below = row & first(bad.trailing_zeros() as usize);
            at += 2 * below.count_ones() as usize;
        }
        need(bad == 0, 6, at)?;
        at += 2 * row.count_ones() as usize;
    }
    Ok(())
}

/// Whether tasks from n on, and costs and successors of vertices from v on,
/// are zero.
fn unused_zero(table: &Table) -> bool {
    let n = usize::from(table.n);
    let rest = table.tasks[n..].iter().all(|task| *task == Task::ZERO);
    let row = table.costs[ENTRIES * n..].iter().all(|cost| *cost == 0);
    rest && row && (0..n).all(|i| unused_zero_in(&table.tasks[i], table.costs_of(i)))
}

fn unused_zero_in(task: &Task, costs: &[u32; ENTRIES]) -> bool {
    let v = usize::from(task.v);
    costs[v..].iter().all(|cost| *cost == 0) && task.succ[v..].iter().all(|row| *row == 0)
}

/// Puts fields one after the other into a buffer that is long enough.
struct Pen<'a> {
    buffer: &'a mut [u8],
    at: usize,
}

impl Pen<'_> {
    #[inline]
    fn put<const N: usize>(&mut self, field: [u8; N]) {
        self.buffer[self.at..self.at + N].copy_from_slice(&field);
        self.at += N;
    }
}

fn write_task(task: &Task, costs: &[u32; ENTRIES], to: &mut Pen) {
    let v = usize::from(task.v);
    to.put(TASK_MARK);
    to.put([task.v, edges(task) as u8]);
    to.put(task.deadline.to_le_bytes());
    to.put(task.period.to_le_bytes());
    for cost in &costs[..v] {
        to.put(cost.to_le_bytes());
    }
    for (h, row) in task.succ[..v].iter().enumerate() {
        let mut left = *row;
        while left != 0 {
            to.put([h as u8, left.trailing_zeros() as u8]);
            left &= left - 1;
        }
    }
}
