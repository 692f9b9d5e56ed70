//! The judge of journals: legal runs with ties broken at random, choices that are not legal, every kind of damage to a row, journals
//! cut short at any byte, misses and bytes behind them; now and then a file that reading refuses.

use crate::comparison::{hex, same, Comparison, Difference};
use crate::face;
use crate::reading;
use second::judge::judge;
use second::random::*;
use second::Table;

pub const JOURNALS: Comparison = Comparison {
    name: "journal",
    one,
    share: 4,
    must_meet: &[
        0, 1, 2, 3, 4, 5, 6, 7, 8, 31, 33, 40, 41, 42, 44, 45, 46, 47,
    ],
};

/// The most rows of a journal.
const ROWS: usize = 40;

fn one(r: &mut Random) -> Result<u8, Difference> {
    let table = busy_table(r);
    let (bytes, journal) = (input(r, &table), journal(r, &table, ROWS));
    let theirs = face::Ruling::from(&judge(&bytes, &journal));
    let ours = face::judge(&bytes, &journal);
    same(theirs.number, &ours, &theirs, || {
        format!("{}\njournal {}", hex(&bytes), hex(&journal))
    })
}

/// The table's file, now and then damaged, or another.
fn input(r: &mut Random, table: &Table) -> Vec<u8> {
    if r.one_in(8) {
        return reading::input(r);
    }
    let mut bytes = file(table);
    if r.one_in(16) {
        damage(r, &mut bytes);
    }
    bytes
}
