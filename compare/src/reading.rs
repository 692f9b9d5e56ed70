//! Reading: number, place and every byte of the table.

use crate::comparison::{hex, same, Comparison, Difference};
use crate::face;
use second::random::*;

pub const READING: Comparison = Comparison {
    name: "read",
    one,
    share: 1,
    must_meet: &[0, 1, 2, 3, 4, 5, 6, 7, 8],
};

fn one(r: &mut Random) -> Result<u8, Difference> {
    let bytes = input(r);
    let theirs = face::ReadAnswer::from(&second::read(&bytes));
    same(theirs.number, &face::read(&bytes), &theirs, || hex(&bytes))
}

/// A file, a file with damage, the bytes of a table with wrong fields, or any bytes.
pub fn input(r: &mut Random) -> Vec<u8> {
    let base = match r.below(12) {
        0 => largest_table(r),
        1 | 2 => table(r),
        3 => tiny_table(r, true),
        _ => few(r),
    };
    match r.below(6) {
        0 => file(&base),
        1 | 2 => damaged(r, file(&base)),
        3 => {
            let changes = r.below(3) + 1;
            raw(&damaged_table(r, &base, changes))
        }
        4 => backwards(r, &base),
        _ => random_bytes(r, 400),
    }
}

fn few(r: &mut Random) -> second::Table {
    let n = r.below(4) + 1;
    table_sized(r, n, 6)
}

fn damaged(r: &mut Random, mut bytes: Vec<u8>) -> Vec<u8> {
    for _ in 0..=r.below(2) {
        damage(r, &mut bytes);
    }
    bytes
}

/// One edge more between vertices of a task, so that often a path leads back.
fn backwards(r: &mut Random, base: &second::Table) -> Vec<u8> {
    let mut table = *base;
    let task = &mut table.tasks[r.below(usize::from(base.n))];
    let v = usize::from(task.v);
    let (from, to) = (r.below(v), r.below(v));
    task.succ[from] |= 1 << to;
    raw(&table)
}
