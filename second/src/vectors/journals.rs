//! The stream of cases for the judge, and the answers.

use super::{put_bytes, take_bytes};
use crate::examples::{table_long, table_marks, TABLE_A};
use crate::judge::{judge, put_row, Ruling};
use crate::random::*;
use crate::reader::read;

/// A table's file and a journal.
pub type JournalCase = (Vec<u8>, Vec<u8>);

/// The stream of cases: the file's length and bytes, or length 0 for the file
/// before; the journal's length and bytes.
pub fn journal_stream(cases: &[JournalCase]) -> Vec<u8> {
    let mut out = Vec::new();
    let mut before: &[u8] = &[];
    for (file, journal) in cases {
        let again = file == before;
        put_bytes(&mut out, if again { &[] } else { file });
        put_bytes(&mut out, journal);
        before = file;
    }
    out
}

/// Answers a stream of cases for the judge; None if it is malformed.
pub fn answer_journals(stream: &[u8]) -> Option<Vec<Ruling>> {
    let mut rest = stream;
    let mut file: &[u8] = &[];
    let mut answers = Vec::new();
    while !rest.is_empty() {
        let bytes = take_bytes(&mut rest)?;
        if !bytes.is_empty() {
            file = bytes;
        }
        answers.push(judge(file, take_bytes(&mut rest)?));
    }
    Some(answers)
}

/// The text of answers: NUMBER PLACE ROW ROWS MISSED in decimal, a line a
/// case.
pub fn journal_text(answers: &[Ruling]) -> String {
    let lines = answers.iter().map(|a| {
        let missed = u8::from(a.missed);
        format!("{} {} {} {} {missed}\n", a.number, a.place, a.row, a.rows)
    });
    lines.collect()
}

pub fn journal_summary(answers: &[Ruling]) -> String {
    let mut said = format!("{} cases; number:count", answers.len());
    for number in 0..64 {
        let count = answers.iter().filter(|a| a.number == number).count();
        if count > 0 {
            said += &format!(" {number}:{count}");
        }
    }
    let missed = answers.iter().filter(|a| a.missed).count();
    said + &format!("; {missed} missed")
}

/// Legal runs, every kind of damage, a journal cut at every byte, files that
/// reading refuses.
pub fn journal_cases(seed: u64) -> Vec<JournalCase> {
    let r = &mut Random::new(seed);
    let mut cases = Vec::new();
    cut_everywhere(r, &TABLE_A, 14, &mut cases);
    cut_everywhere(r, &file(&table_marks()), 14, &mut cases);
    let rows = busy_rows(r, &table_long(), 20);
    cases.push((file(&table_long()), rows.concat()));
    cut_everywhere(r, &file(&table_long()), 6, &mut cases);
    behind_a_miss(&mut cases);
    for round in 0..130 {
        let table = if round % 13 == 0 {
            largest_table(r)
        } else {
            busy_table(r)
        };
        let file = file(&table);
        let rows = if round % 13 == 0 { 3 } else { 16 };
        for _ in 0..12 {
            cases.push((file.clone(), journal(r, &table, rows)));
        }
        let mut bad = file.clone();
        damage(r, &mut bad);
        if round % 13 != 0 && !bad.is_empty() {
            cases.push((bad, journal(r, &table, 2)));
        }
    }
    cases
}

/// A run of a table of so many rows, cut at every byte, and with each byte
/// changed.
fn cut_everywhere(r: &mut Random, file: &[u8], rows: usize, cases: &mut Vec<JournalCase>) {
    let file = file.to_vec();
    let rows = legal_rows(r, &read(&file).table, rows).concat();
    for length in 0..=rows.len() {
        cases.push((file.clone(), rows[..length].to_vec()));
    }
    for at in 0..rows.len() {
        let mut changed = rows.clone();
        changed[at] ^= 1 << r.below(8);
        cases.push((file.clone(), changed));
    }
}

/// Bytes behind a miss of table A with a shorter deadline.
fn behind_a_miss(cases: &mut Vec<JournalCase>) {
    let mut late = read(&TABLE_A).table;
    late.tasks[0].deadline = 1;
    let late = crate::random::file(&late);
    let mut journal = Vec::new();
    put_row(&mut journal, 1, &[(0, 0, 0)]);
    cases.push((late.clone(), journal.clone()));
    for stray in [
        &b"J"[..],
        b"X",
        b"JR\0\0\x01\0\0\0",
        b"JR\0\0\0",
        b"XR\x01\0\x01\0\0\0",
    ] {
        cases.push((late.clone(), [&journal[..], stray].concat()));
    }
}
