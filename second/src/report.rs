//! The report's text, byte for byte.

use crate::reader::read;
use crate::sharp::SHARP;
use crate::verdict::{Way, OLD};
use std::fmt::Write;

/// The text that the report program prints for a file's bytes.
pub fn report(bytes: &[u8]) -> Vec<u8> {
    report_by(&OLD, bytes)
}

/// The same with the sharp due and margins, and the sharp verdict.
pub fn sharp_report(bytes: &[u8]) -> Vec<u8> {
    report_by(&SHARP, bytes)
}

/// The report by a way of judging.
pub fn report_by(way: &Way, bytes: &[u8]) -> Vec<u8> {
    let mut text = String::new();
    put(&mut text, way, bytes).expect("a string takes every line");
    text.into_bytes()
}

fn put(text: &mut String, way: &Way, bytes: &[u8]) -> std::fmt::Result {
    let found = read(bytes);
    if found.number != 0 {
        return writeln!(text, "unreadable {} at {}", found.number, found.place);
    }
    let table = &found.table;
    writeln!(text, "processors {} tasks {}", table.m, table.n)?;
    let rows = (way.rows)(table);
    let rows = &rows[..usize::from(table.n)];
    for (k, f) in rows.iter().enumerate() {
        writeln!(
            text,
            "task {k} vol {} len {} due {} margin {}",
            f.vol, f.len, f.due, f.margin
        )?;
    }
    let answer = way.named(table, rows);
    match answer.number {
        0 => write!(text, "accept")?,
        number => write!(text, "refuse {number}")?,
    }
    write!(text, " task {} margin {} chain", answer.task, answer.margin)?;
    for vertex in answer.chain.list() {
        write!(text, " {vertex}")?;
    }
    writeln!(text)
}
