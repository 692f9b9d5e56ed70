//! The figures of a task and the verdict on a table; a way of judging, of which
//! there are two (the other one is in `sharp`).

use crate::chain::{longest_named, Chain};
use crate::graph::longest_chain;
use crate::reader::read;
use crate::table::*;

/// The task of an answer that names none.
pub const NO_TASK: u8 = 255;

/// The answer to a file's bytes.
#[derive(Clone, Copy, PartialEq, Eq, Debug)]
pub struct Verdict {
    pub number: u8,
    pub place: usize,
    pub task: u8,
    pub margin: i64,
    pub chain: Chain,
}

/// The figures of one task.
#[derive(Clone, Copy, PartialEq, Eq, Debug)]
pub struct Figures {
    pub vol: i64,
    pub len: i64,
    pub due: i64,
    pub margin: i64,
}

impl Figures {
    pub const ZERO: Figures = Figures {
        vol: 0,
        len: 0,
        due: 0,
        margin: 0,
    };
}

/// The figures of every task, zeros where there is none.
pub type Rows = [Figures; ENTRIES];

/// A way of judging: the figures of all tasks, and what refuses a table with
/// them: a number and a task.
#[derive(Clone, Copy)]
pub struct Way {
    pub rows: fn(&Table) -> Rows,
    pub refusal: fn(&Table, &[Figures]) -> Option<(u8, usize)>,
}

/// Document 01's verdict.
pub const OLD: Way = Way {
    rows,
    refusal: |_, rows| first_negative(rows).map(|k| (20, k)),
};

impl Way {
    /// The verdict on a file's bytes.
    pub fn verdict(&self, bytes: &[u8]) -> Verdict {
        let found = read(bytes);
        if found.number != 0 {
            return Verdict {
                number: found.number,
                place: found.place,
                task: NO_TASK,
                margin: 0,
                chain: Chain::NONE,
            };
        }
        self.judge(&found.table)
    }

    /// The verdict on a table that the reader gave.
    pub fn judge(&self, table: &Table) -> Verdict {
        self.named(table, &(self.rows)(table)[..usize::from(table.n)])
    }

    /// The verdict with the figures of all tasks: the refusal's task, else
    /// the lowest with the smallest margin.
    pub fn named(&self, table: &Table, rows: &[Figures]) -> Verdict {
        let least = (0..rows.len()).min_by_key(|k| rows[*k].margin);
        let accepted = least.map_or((0, usize::from(NO_TASK)), |k| (0, k));
        let (number, k) = (self.refusal)(table, rows).unwrap_or(accepted);
        Verdict {
            number,
            place: 0,
            task: k as u8,
            margin: rows.get(k).map_or(0, |figures| figures.margin),
            chain: chain(table, k),
        }
    }
}

/// The lowest task with a negative margin.
pub fn first_negative(rows: &[Figures]) -> Option<usize> {
    rows.iter().position(|figures| figures.margin < 0)
}

/// The verdict on a file's bytes.
pub fn verdict(bytes: &[u8]) -> Verdict {
    OLD.verdict(bytes)
}

/// The verdict on a table that the reader gave.
pub fn judge(table: &Table) -> Verdict {
    OLD.judge(table)
}

/// The longest chain of task k by name; none of a task that is not there.
fn chain(table: &Table, k: usize) -> Chain {
    let Some(task) = table.tasks.get(k) else {
        return Chain::NONE;
    };
    longest_named(&task.succ, table.costs_of(k), usize::from(task.v))
}

fn rows(table: &Table) -> Rows {
    let vols = vols(table);
    rows_with(table, &vols, |k| due(table, &vols, k))
}

/// The figures of all tasks from their vol and their due work, however that is
/// counted.
pub fn rows_with(table: &Table, vols: &[i64; ENTRIES], due: impl Fn(usize) -> i64) -> Rows {
    let mut rows = [Figures::ZERO; ENTRIES];
    for k in 0..usize::from(table.n) {
        rows[k] = figures_with(table, k, vols[k], due(k));
    }
    rows
}

/// vol, len, due and margin of task k of a table that the reader gave.
pub fn figures(table: &Table, k: usize) -> Figures {
    let vols = vols(table);
    figures_with(table, k, vols[k], due(table, &vols, k))
}

/// The margin of a task from its due work.
pub fn figures_with(table: &Table, k: usize, vol: i64, due: i64) -> Figures {
    let task = &table.tasks[k];
    let len = longest_chain(&task.succ, table.costs_of(k), usize::from(task.v)) as i64;
    let m = i64::from(table.m);
    Figures {
        vol,
        len,
        due,
        margin: m * i64::from(task.deadline) - (m - 1) * len - due,
    }
}

/// Over all tasks i: D_k divided by T_i, rounded up, times vol_i.
fn due(table: &Table, vols: &[i64; ENTRIES], k: usize) -> i64 {
    let window = table.tasks[k].deadline;
    let used = table.tasks[..usize::from(table.n)].iter().zip(vols);
    used.map(|(task, vol)| i64::from(window.div_ceil(task.period)) * vol)
        .sum()
}

pub fn vols(table: &Table) -> [i64; ENTRIES] {
    let mut vols = [0; ENTRIES];
    for (i, vol) in vols.iter_mut().enumerate() {
        *vol = table.costs_of(i).iter().map(|cost| i64::from(*cost)).sum();
    }
    vols
}
