//! A quick yes or no on a file: document 02, M-105.

use crate::graph::longest_chain;
use crate::reader::read;
use crate::table::Table;

/// Stops at the first unreadable field, or at the first task whose growing due work exceeds its allowance.
pub fn quick(bytes: &[u8]) -> bool {
    let found = read(bytes);
    found.number == 0 && (0..usize::from(found.table.n)).all(|k| is_enough(&found.table, k))
}

/// Whether what is due within task k's deadline stays within its allowance, which may be negative.
fn is_enough(table: &Table, k: usize) -> bool {
    let task = &table.tasks[k];
    let m = i64::from(table.m);
    let len = longest_chain(&task.succ, table.costs_of(k), usize::from(task.v)) as i64;
    let allowance = m * i64::from(task.deadline) - (m - 1) * len;
    let mut due = 0;
    for (i, other) in table.tasks[..usize::from(table.n)].iter().enumerate() {
        let vol: i64 = table.costs_of(i).iter().map(|cost| i64::from(*cost)).sum();
        due += i64::from(task.deadline.div_ceil(other.period)) * vol;
        if due > allowance {
            return false;
        }
    }
    true
}
