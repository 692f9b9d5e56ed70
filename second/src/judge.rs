//! The judge of panel journals, from document 02, M-100.

use crate::machine::*;
use crate::reader::read;
use crate::table::Table;

pub const ROW_MARK: [u8; 2] = [0x4A, 0x52];
/// Mark, release set and run count.
pub const ROW_HEAD: usize = 5;
/// Task, age place and vertex.
pub const ROW_VERTEX: usize = 3;

/// Number 0 with the number of rows and whether the last one missed; or the
/// refusal's number and row, for reading's numbers the place and row 0.
#[derive(Clone, Copy, PartialEq, Eq, Debug, Default)]
pub struct Ruling {
    pub number: u8,
    pub place: usize,
    pub row: usize,
    pub rows: usize,
    pub missed: bool,
}

/// Judges a journal of a table's file.
pub fn judge(file: &[u8], journal: &[u8]) -> Ruling {
    let found = read(file);
    if found.number != 0 {
        return Ruling {
            number: found.number,
            place: found.place,
            ..Ruling::default()
        };
    }
    judge_table(&found.table, journal)
}

impl Ruling {
    /// The judge program's line.
    pub fn line(&self) -> String {
        let (number, rows) = (self.number, self.rows);
        match number {
            0 if self.missed => format!("legal {rows} rows, the last missed\n"),
            0 => format!("legal {rows} rows\n"),
            1..=8 => format!("unreadable {number} at {}\n", self.place),
            _ => format!("refuse {number} at row {}\n", self.row),
        }
    }
}

/// The line that the judge program prints for an input: a table's length in
/// two bytes, the table, then the journal to the end. Where the input ends
/// within the table, the table is what is there.
pub fn judge_line(input: &[u8]) -> String {
    let byte = |at: usize| usize::from(input.get(at).copied().unwrap_or(0));
    let rest = input.get(2..).unwrap_or(&[]);
    let length = byte(0) + 256 * byte(1);
    let (file, journal) = rest.split_at(length.min(rest.len()));
    judge(file, journal).line()
}

/// Judges a journal of a table that the reader gave.
pub fn judge_table(table: &Table, journal: &[u8]) -> Ruling {
    let mut state = State::zeros(0, Phase::Running);
    let mut rest = journal;
    let mut row = 0;
    while !rest.is_empty() {
        match judge_row(table, &state, rest) {
            Ok((next, length)) => {
                state = next;
                rest = &rest[length..];
                row += 1;
            }
            Err(number) => {
                return Ruling {
                    number,
                    row,
                    ..Ruling::default()
                }
            }
        }
    }
    Ruling {
        rows: row,
        missed: state.phase != Phase::Running,
        ..Ruling::default()
    }
}

/// The row at the front of `rest`: the state after it and its length, or its
/// refusal.
fn judge_row(table: &Table, state: &State, rest: &[u8]) -> Result<(State, usize), u8> {
    let hold = |holds: bool, number: u8| if holds { Ok(()) } else { Err(number) };
    hold(state.phase == Phase::Running, 47)?;
    let count = rest.get(ROW_HEAD - 1).map(|byte| usize::from(*byte));
    let length = count.map(|count| ROW_HEAD + ROW_VERTEX * count);
    let whole = length.filter(|length| *length <= rest.len());
    let length = whole.ok_or(40)?;
    let (head, triples) = rest[..length].split_at(ROW_HEAD);
    hold(head[..2] == ROW_MARK, 41)?;
    let listed = triples.chunks_exact(ROW_VERTEX);
    let listed: Vec<Vertex> = listed.map(|bytes| (bytes[0], bytes[1], bytes[2])).collect();
    let ascend = listed.windows(2).all(|two| two[0] < two[1]);
    hold(listed.len() <= usize::from(table.m) && ascend, 42)?;
    let releases = u16::from_le_bytes([head[2], head[3]]);
    let named = (0..16).filter(|i| releases >> i & 1 == 1);
    hold(named.clone().all(|i| i < usize::from(table.n)), 31)?;
    hold(!named.clone().any(|i| state.tasks[i].wait > 0), 33)?;
    let before = release(table, state, releases);
    choose(table, &before, &listed)?;
    Ok((go_on(table, &before, releases, &listed).state, length))
}

/// 44 to 46, of the state with the releases made.
fn choose(table: &Table, released: &State, listed: &[Vertex]) -> Result<(), u8> {
    let available = rank(table, released);
    let is_listed = |entry: &&u64| listed.contains(&vertex_of(**entry));
    let hits = || available.all().iter().filter(is_listed);
    if hits().count() < listed.len() {
        return Err(44);
    }
    if listed.len() < usize::from(table.m).min(available.all().len()) {
        return Err(45);
    }
    // The first one not listed has the fewest ticks left of all such.
    let passed = available.all().iter().find(|entry| !is_listed(entry));
    match (passed, hits().last()) {
        (Some(passed), Some(latest)) if left_of(*passed) < left_of(*latest) => Err(46),
        _ => Ok(()),
    }
}

/// A row's bytes: the vertices that ran, in any order, are put down ascending.
pub fn put_row(out: &mut Vec<u8>, releases: u16, ran: &[Vertex]) {
    let mut ran = ran.to_vec();
    ran.sort_unstable();
    out.extend(ROW_MARK);
    out.extend(releases.to_le_bytes());
    out.push(ran.len() as u8);
    out.extend(
        ran.iter()
            .flat_map(|(task, age, vertex)| [*task, *age, *vertex]),
    );
}
