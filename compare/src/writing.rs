//! Writing: number, place and every byte of the buffer; what was written is read back.

use crate::comparison::{hex, same, Comparison, Difference};
use crate::face;
use second::random::*;
use second::table::LARGEST;

pub const WRITING: Comparison = Comparison {
    name: "write",
    one,
    share: 1,
    must_meet: &[0, 3, 4, 5, 6, 7, 9, 10],
};

/// What a side says: its answer, the buffer afterwards, and what the reader makes of a file that was written.
#[derive(PartialEq, Eq, Debug)]
struct Said {
    answer: face::WriteAnswer,
    buffer: Vec<u8>,
    back: Option<face::Table>,
}

fn one(r: &mut Random) -> Result<u8, Difference> {
    let table = input(r);
    let before = buffer(r, &table);
    let mut given = face::Table::from(&table);
    if r.coin() {
        fill_pads(r, &mut given);
    }
    let ours = ours(given, before.clone());
    let theirs = theirs(&table, before.clone());
    same(theirs.answer.number, &ours, &theirs, || {
        format!("{table:?}\nbuffer {}", hex(&before))
    })
}

fn ours(table: face::Table, mut buffer: Vec<u8>) -> Said {
    let answer = face::write(table, &mut buffer);
    let length = buffer.len().min(answer.place as usize);
    let back = (answer.number == 0).then(|| face::read(&buffer[..length]).table);
    Said {
        answer,
        buffer,
        back,
    }
}

fn theirs(table: &second::Table, mut buffer: Vec<u8>) -> Said {
    let answer = face::WriteAnswer::of(second::write(table, &mut buffer));
    Said {
        answer,
        buffer,
        back: (answer.number == 0).then(|| face::Table::from(table)),
    }
}

/// Any bytes in the padding of a table, at which nobody looks.
fn fill_pads(r: &mut Random, table: &mut face::Table) {
    let tasks = table.tasks.iter_mut().flat_map(|task| &mut task.pad);
    for byte in tasks.chain(&mut table.pad) {
        *byte = r.byte();
    }
}

/// A table that has a file, or one with some fields or all fields changed.
pub fn input(r: &mut Random) -> second::Table {
    let base = match r.below(8) {
        0 => largest_table(r),
        1 => table(r),
        2 => tiny_table(r, true),
        _ => {
            let n = r.below(4) + 1;
            table_sized(r, n, 6)
        }
    };
    match r.below(8) {
        0..=2 => base,
        3..=5 => damaged_table(r, &base, 1),
        6 => damaged_table(r, &base, 3),
        _ => wild_table(r),
    }
}

/// A buffer about as long as the file, shorter, longer or of any length, with any bytes in it.
fn buffer(r: &mut Random, table: &second::Table) -> Vec<u8> {
    let file = second::writer::length(table).unwrap_or(0);
    let length = match r.below(6) {
        0 => file,
        1 => file.saturating_sub(1),
        2 => r.below(file + 1),
        3 => file + r.below(8),
        4 => r.pick(&[0, LARGEST]),
        _ => r.below(LARGEST + 100),
    };
    (0..length).map(|_| r.byte()).collect()
}
