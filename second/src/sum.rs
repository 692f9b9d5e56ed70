//! Checksums: 32-bit FNV-1a, and a table's canonical serialisation.

use crate::table::*;

/// m, n; then for each of sixteen tasks v, D, T and sixteen successors; then
/// 256 costs. 1,682 bytes, all numbers little-endian.
pub const CANONICAL: usize = 2 + ENTRIES * (1 + 4 + 4 + 2 * ENTRIES) + 4 * ROW;

/// 32-bit FNV-1a.
pub fn fnv(bytes: &[u8]) -> u32 {
    bytes.iter().fold(0x811C_9DC5, |sum, byte| {
        (sum ^ u32::from(*byte)).wrapping_mul(0x0100_0193)
    })
}

pub fn canonical(table: &Table) -> Vec<u8> {
    let mut out = vec![table.m, table.n];
    for task in &table.tasks {
        out.push(task.v);
        out.extend(task.deadline.to_le_bytes());
        out.extend(task.period.to_le_bytes());
        out.extend(task.succ.iter().flat_map(|row| row.to_le_bytes()));
    }
    out.extend(table.costs.iter().flat_map(|cost| cost.to_le_bytes()));
    out
}

/// The checksum of a table.
pub fn table_sum(table: &Table) -> u32 {
    fnv(&canonical(table))
}
