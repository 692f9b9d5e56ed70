//! Random bytes and damage to bytes.

use super::Random;
use crate::table::*;
use crate::writer::write;

/// A valid table's file.
pub fn file(table: &Table) -> Vec<u8> {
    let mut buffer = vec![0; LARGEST];
    let (number, length) = write(table, &mut buffer);
    assert_eq!(number, 0, "only valid tables have a file");
    buffer.truncate(length);
    buffer
}

/// The bytes that a table stands for, put down without a test; n and v above
/// 16 count as 16, e above 255 as 255.
pub fn raw(table: &Table) -> Vec<u8> {
    let mut out = [TABLE_MARK, [table.m, table.n]].concat();
    for i in 0..usize::from(table.n).min(ENTRIES) {
        let task = &table.tasks[i];
        let v = usize::from(task.v).min(ENTRIES);
        let mut edges = Vec::new();
        for h in 0..v {
            let to = (0..ENTRIES).filter(|j| task.succ[h] >> j & 1 == 1);
            edges.extend(to.map(|j| [h as u8, j as u8]));
        }
        out.extend(TASK_MARK);
        out.extend([task.v, edges.len().min(255) as u8]);
        out.extend(task.deadline.to_le_bytes());
        out.extend(task.period.to_le_bytes());
        let costs = &table.costs_of(i)[..v];
        out.extend(costs.iter().flat_map(|cost| cost.to_le_bytes()));
        out.extend(edges.concat());
    }
    out
}

/// Cut short, one byte changed, bytes put in, taken out or put behind.
pub fn damage(r: &mut Random, bytes: &mut Vec<u8>) {
    let at = r.below(bytes.len() + 1);
    let some = r.below(3) + 1;
    match r.below(6) {
        0 => bytes.truncate(at),
        1 if at < bytes.len() => bytes[at] = r.byte(),
        2 if at < bytes.len() => bytes[at] ^= 1 << r.below(8),
        3 => bytes
            .splice(at..at, (0..some).map(|_| r.number() as u8))
            .for_each(drop),
        4 => bytes.drain(at..(at + some).min(bytes.len())).for_each(drop),
        _ => bytes.extend((0..some).map(|_| r.number() as u8)),
    }
}

/// Random bytes; often with right marks at the front, so that the reader gets
/// a little further.
pub fn random_bytes(r: &mut Random, most: usize) -> Vec<u8> {
    let length = r.below(most + 1);
    let mut out: Vec<u8> = (0..length).map(|_| r.byte()).collect();
    if r.coin() && length >= 8 {
        out[..2].copy_from_slice(&TABLE_MARK);
        out[2] = r.range(1, 8) as u8;
        out[3] = r.range(1, 16) as u8;
        out[4..6].copy_from_slice(&TASK_MARK);
        out[6] = r.range(1, 16) as u8;
        out[7] = r.range(0, 121) as u8;
    }
    out
}
