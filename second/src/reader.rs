//! The reader: any byte string gives a number, a place and a table.

use crate::graph::has_cycle;
use crate::table::*;

/// What reading hands back. On a refusal the table is all zeros.
#[derive(Clone, Copy, PartialEq, Eq, Debug)]
pub struct Read {
    pub number: u8,
    pub place: usize,
    pub table: Table,
}

/// What reading from some place hands back; `end` is the first byte after
/// the last record, 0 on a refusal.
#[derive(Clone, Copy, PartialEq, Eq, Debug)]
pub struct Core {
    pub number: u8,
    pub place: usize,
    pub end: usize,
    pub table: Table,
}

/// Reads a whole file: a table and then the end.
pub fn read(bytes: &[u8]) -> Read {
    let mut table = Table::ZERO;
    match read_file(bytes, &mut table) {
        Ok(()) => Read {
            number: 0,
            place: 0,
            table,
        },
        Err(stop) => Read {
            number: stop.number,
            place: stop.place,
            table: Table::ZERO,
        },
    }
}

/// Reads a table that begins at `start`, whatever follows it. Places count
/// from the first of `bytes`.
pub fn read_at(bytes: &[u8], start: usize) -> Core {
    let mut table = Table::ZERO;
    match read_records(bytes, start, &mut table) {
        Ok(end) => Core {
            number: 0,
            place: 0,
            end,
            table,
        },
        Err(stop) => Core {
            number: stop.number,
            place: stop.place,
            end: 0,
            table: Table::ZERO,
        },
    }
}

fn read_file(bytes: &[u8], table: &mut Table) -> Result<(), Stop> {
    let end = read_records(bytes, 0, table)?;
    need(end == bytes.len(), 8, end)
}

/// Fills a table of zeros; gives the first byte after the last record.
fn read_records(bytes: &[u8], start: usize, table: &mut Table) -> Result<usize, Stop> {
    need(field(bytes, start)? == TABLE_MARK, 2, start)?;
    [table.m] = field(bytes, start + 2)?;
    need((1..=MOST_PROCESSORS).contains(&table.m), 3, start + 2)?;
    [table.n] = field(bytes, start + 3)?;
    need((1..=MOST_TASKS).contains(&table.n), 3, start + 3)?;
    let mut at = start + 4;
    for i in 0..usize::from(table.n) {
        at = read_task(bytes, at, i, table)?;
    }
    Ok(at)
}

fn read_task(bytes: &[u8], mark: usize, i: usize, table: &mut Table) -> Result<usize, Stop> {
    let task = &mut table.tasks[i];
    need(field(bytes, mark)? == TASK_MARK, 2, mark)?;
    [task.v] = field(bytes, mark + 2)?;
    need((1..=MOST_VERTICES).contains(&task.v), 3, mark + 2)?;
    let [e] = field(bytes, mark + 3)?;
    need(u32::from(e) <= MOST_EDGES, 3, mark + 3)?;
    task.deadline = ticks(bytes, mark + 4, ticks_in_range)?;
    task.period = ticks(bytes, mark + 8, ticks_in_range)?;
    need(deadline_in_range(task.deadline, task.period), 5, mark + 8)?;
    let v = usize::from(task.v);
    let mut at = mark + 12;
    for cost in &mut table.costs[ENTRIES * i..][..v] {
        *cost = ticks(bytes, at, cost_in_range)?;
        at += 4;
    }
    at = read_edges(bytes, at, e, task)?;
    need(!has_cycle(&task.succ, v), 7, mark)?;
    Ok(at)
}

fn read_edges(bytes: &[u8], mut at: usize, e: u8, task: &mut Task) -> Result<usize, Stop> {
    // The edge before as one number; -1 stands below every edge.
    let mut before = -1;
    for _ in 0..e {
        let [from, to] = field(bytes, at)?;
        let here = i32::from(from) << 8 | i32::from(to);
        let ends = from < task.v && to < task.v && from != to;
        need(ends && here > before, 6, at)?;
        task.succ[usize::from(from)] |= 1 << to;
        before = here;
        at += 2;
    }
    Ok(at)
}

/// D, T or a cost: 1 first, then 4 by its own range.
#[inline]
fn ticks(bytes: &[u8], at: usize, in_range: fn(u32) -> bool) -> Result<u32, Stop> {
    let number = u32::from_le_bytes(field(bytes, at)?);
    need(in_range(number), 4, at)?;
    Ok(number)
}

/// A field's bytes, if it lies wholly within the input.
#[inline]
fn field<const N: usize>(bytes: &[u8], at: usize) -> Result<[u8; N], Stop> {
    let found = bytes.get(at..).and_then(|rest| rest.first_chunk::<N>());
    found.copied().ok_or(Stop {
        number: 1,
        place: at,
    })
}
