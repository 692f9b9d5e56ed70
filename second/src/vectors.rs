//! Recorded vectors: streams of cases, and the answers in text.

mod journals;
mod read_cases;
mod sharp_cases;
mod verdict_cases;
mod verdicts;
mod watch_cases;
mod write_cases;

pub use journals::*;
pub use read_cases::read_cases;
pub use sharp_cases::{both_cases, sharp_cases};
pub use verdict_cases::verdict_cases;
pub use verdicts::*;
pub use watch_cases::watch_cases;
pub use write_cases::write_cases;

use crate::reader::read;
use crate::sum::{fnv, table_sum};
use crate::table::*;
use crate::watch::watch;
use crate::writer::write;

/// What the buffer holds before a write.
pub const FILL: u8 = 0xA5;

/// A change to a table value: a field's code and its new value.
#[derive(Clone, Copy, PartialEq, Eq, Debug)]
pub struct Patch {
    pub field: u16,
    pub value: u32,
}

pub const FIELD_M: u16 = 0;
pub const FIELD_N: u16 = 1;

pub fn field_v(i: usize) -> u16 {
    16 + i as u16
}

pub fn field_d(i: usize) -> u16 {
    32 + i as u16
}

pub fn field_t(i: usize) -> u16 {
    48 + i as u16
}

pub fn field_succ(i: usize, h: usize) -> u16 {
    (256 + ENTRIES * i + h) as u16
}

pub fn field_cost(i: usize, h: usize) -> u16 {
    (512 + ENTRIES * i + h) as u16
}

/// Changes one field; None for a code that no field has or a value too wide.
pub fn apply(table: &mut Table, patch: Patch) -> Option<()> {
    let code = usize::from(patch.field);
    let (i, byte) = (code % ENTRIES, u8::try_from(patch.value));
    let at = code % ROW;
    match code {
        0 => table.m = byte.ok()?,
        1 => table.n = byte.ok()?,
        16..=31 => table.tasks[i].v = byte.ok()?,
        32..=47 => table.tasks[i].deadline = patch.value,
        48..=63 => table.tasks[i].period = patch.value,
        256..=511 => {
            let bits = u16::try_from(patch.value).ok()?;
            table.tasks[at / ENTRIES].succ[at % ENTRIES] = bits;
        }
        512..=767 => table.costs[at] = patch.value,
        _ => return None,
    }
    Some(())
}

/// A case for the writer: the base's bytes (none: the base before), patches
/// and the buffer's length.
#[derive(Clone, PartialEq, Eq, Debug, Default)]
pub struct WriteCase {
    pub base: Vec<u8>,
    pub patches: Vec<Patch>,
    pub buffer: u16,
}

/// The stream of cases for the reader, or for the watch program.
pub fn read_stream(cases: &[Vec<u8>]) -> Vec<u8> {
    let mut out = Vec::new();
    for case in cases {
        put_bytes(&mut out, case);
    }
    out
}

/// The stream of cases for the writer.
pub fn write_stream(cases: &[WriteCase]) -> Vec<u8> {
    let mut out = Vec::new();
    for case in cases {
        put_bytes(&mut out, &case.base);
        let count = u8::try_from(case.patches.len()).expect("at most 255 patches");
        out.push(count);
        for patch in &case.patches {
            out.extend(patch.field.to_le_bytes());
            out.extend(patch.value.to_le_bytes());
        }
        out.extend(case.buffer.to_le_bytes());
    }
    out
}

fn put_bytes(out: &mut Vec<u8>, bytes: &[u8]) {
    let length = u16::try_from(bytes.len()).expect("a case is shorter than 65,536 bytes");
    out.extend(length.to_le_bytes());
    out.extend(bytes);
}

/// One line of an answer.
#[derive(Clone, Copy, PartialEq, Eq, Debug)]
pub struct Expected {
    pub number: u8,
    pub place: usize,
    pub sum: u32,
}

/// The text of answers: NUMBER PLACE SUM in decimal, a line a case.
pub fn text(answers: &[Expected]) -> String {
    let lines = answers.iter().map(|answer| {
        let (number, place) = (answer.number, answer.place);
        format!("{number} {place} {}\n", answer.sum)
    });
    lines.collect()
}

/// Answers a stream of cases for the reader; None if it is malformed.
pub fn answer_reads(stream: &[u8]) -> Option<Vec<Expected>> {
    let mut rest = stream;
    let mut answers = Vec::new();
    while !rest.is_empty() {
        let found = read(take_bytes(&mut rest)?);
        answers.push(Expected {
            number: found.number,
            place: found.place,
            sum: table_sum(&found.table),
        });
    }
    Some(answers)
}

/// Answers a stream of cases for the writer; None if it is malformed.
pub fn answer_writes(stream: &[u8]) -> Option<Vec<Expected>> {
    let mut rest = stream;
    let mut base = Table::ZERO;
    let mut answers = Vec::new();
    while !rest.is_empty() {
        let bytes = take_bytes(&mut rest)?;
        if !bytes.is_empty() {
            // A refusal gives the table of zeros, as the reader says.
            base = read(bytes).table;
        }
        let mut table = base;
        let [count] = take(&mut rest)?;
        for _ in 0..count {
            let field = u16::from_le_bytes(take(&mut rest)?);
            let value = u32::from_le_bytes(take(&mut rest)?);
            apply(&mut table, Patch { field, value })?;
        }
        let length = u16::from_le_bytes(take(&mut rest)?);
        let mut buffer = vec![FILL; usize::from(length)];
        let (number, place) = write(&table, &mut buffer);
        answers.push(Expected {
            number,
            place,
            sum: fnv(&buffer),
        });
    }
    Some(answers)
}

/// One line of an answer for the watch program: how many lines it shows, and
/// their checksum.
#[derive(Clone, Copy, PartialEq, Eq, Debug)]
pub struct Shown {
    pub lines: usize,
    pub sum: u32,
}

/// The text of answers for the watch program: LINES SUM, a line a case.
pub fn shown_text(answers: &[Shown]) -> String {
    let lines = answers
        .iter()
        .map(|answer| format!("{} {}\n", answer.lines, answer.sum));
    lines.collect()
}

/// Answers a stream of cases for the watch program; None if it is malformed.
pub fn answer_watches(stream: &[u8]) -> Option<Vec<Shown>> {
    let mut rest = stream;
    let mut answers = Vec::new();
    while !rest.is_empty() {
        let text = watch(take_bytes(&mut rest)?);
        answers.push(Shown {
            lines: text.iter().filter(|byte| **byte == 10).count(),
            sum: fnv(&text),
        });
    }
    Some(answers)
}

fn take<const N: usize>(rest: &mut &[u8]) -> Option<[u8; N]> {
    let (field, after) = rest.split_first_chunk::<N>()?;
    *rest = after;
    Some(*field)
}

fn take_bytes<'a>(rest: &mut &'a [u8]) -> Option<&'a [u8]> {
    let length = usize::from(u16::from_le_bytes(take(rest)?));
    let (bytes, after) = rest.split_at_checked(length)?;
    *rest = after;
    Some(bytes)
}
