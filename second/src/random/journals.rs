//! Random journals: legal runs with ties broken at random, and damage to them.

use super::{releases, Random};
use crate::judge::{put_row, ROW_HEAD, ROW_VERTEX};
use crate::machine::*;
use crate::table::*;

/// A choice of as many as may run: what must run, and any of those that tie
/// for the last places; or, where `fair` is false, any that are available.
pub fn choice(r: &mut Random, table: &Table, released: &State, fair: bool) -> Vec<Vertex> {
    let ranked = rank(table, released);
    let all = ranked.all();
    let count = ranked.first(usize::from(table.m)).len();
    let mut chosen: Vec<Vertex> = all.iter().copied().map(vertex_of).collect();
    if count > 0 {
        let last = left_of(all[count - 1]);
        let must = all.partition_point(|entry| left_of(*entry) < last);
        let upto = all.partition_point(|entry| left_of(*entry) <= last);
        let (from, to) = if fair { (must, upto) } else { (0, all.len()) };
        for place in from..count {
            let other = place + r.below(to - place);
            chosen.swap(place, other);
        }
    }
    chosen.truncate(count);
    chosen
}

/// A run of at most so many rows, as the bytes of each; it ends at a miss.
/// Every choice is legal but that of row `unfair`, if there is one.
pub fn rows_of(r: &mut Random, table: &Table, rows: usize, unfair: usize) -> Vec<Vec<u8>> {
    let mut state = State::zeros(r.number(), Phase::Running);
    let mut out = Vec::new();
    while out.len() < rows && state.phase == Phase::Running {
        let set = releases(r, table, &state);
        let before = release(table, &state, set);
        let chosen = choice(r, table, &before, out.len() != unfair);
        let mut row = Vec::new();
        put_row(&mut row, set, &chosen);
        out.push(row);
        state = go_on(table, &before, set, &chosen).state;
    }
    out
}

/// A legal run of at most so many rows.
pub fn legal_rows(r: &mut Random, table: &Table, rows: usize) -> Vec<Vec<u8>> {
    rows_of(r, table, rows, usize::MAX)
}

/// A legal run of so many rows, or up to a miss, in which every task is
/// released whenever it may be.
pub fn busy_rows(r: &mut Random, table: &Table, rows: usize) -> Vec<Vec<u8>> {
    let mut state = State::zeros(0, Phase::Running);
    let mut out = Vec::new();
    while out.len() < rows && state.phase == Phase::Running {
        let ready = (0..usize::from(table.n)).filter(|i| state.tasks[*i].wait == 0);
        let set = ready.fold(0, |set, i| set | 1 << i);
        let before = release(table, &state, set);
        let chosen = choice(r, table, &before, true);
        let mut row = Vec::new();
        put_row(&mut row, set, &chosen);
        out.push(row);
        state = go_on(table, &before, set, &chosen).state;
    }
    out
}

/// Damage to one row, as a whole or in a field; or bytes behind the last.
pub fn damage_rows(r: &mut Random, table: &Table, rows: &mut Vec<Vec<u8>>) {
    if rows.is_empty() || r.one_in(12) {
        let stray = (0..r.below(9) + 1).map(|_| r.byte()).collect();
        rows.push(stray);
        return;
    }
    let at = r.below(rows.len());
    match r.below(16) {
        0 => drop(rows.remove(at)),
        1 => rows.insert(at, rows[at].clone()),
        2 => {
            let other = r.below(rows.len());
            rows.swap(at, other);
        }
        _ => damage_row(r, table, &mut rows[at]),
    }
}

fn damage_row(r: &mut Random, table: &Table, row: &mut Vec<u8>) {
    if row.len() < ROW_HEAD {
        row.push(r.byte());
        return;
    }
    let mut listed: Vec<[u8; ROW_VERTEX]> = row[ROW_HEAD..]
        .chunks_exact(ROW_VERTEX)
        .map(|bytes| [bytes[0], bytes[1], bytes[2]])
        .collect();
    match r.below(10) {
        0 => row[r.below(2)] ^= 1 << r.below(8),
        1 => row[2 + r.below(2)] ^= 1 << r.below(8),
        2 => row[4] = r.below_either(10, 256) as u8,
        3 => row.truncate(r.below(row.len())),
        _ => {
            damage_list(r, table, &mut listed);
            row.truncate(ROW_HEAD);
            row[4] = listed.len() as u8;
            row.extend(listed.concat());
        }
    }
}

/// One vertex less, one twice, one more or another one, in order; one with
/// another task, age place or vertex, or two exchanged, where they stand.
fn damage_list(r: &mut Random, table: &Table, listed: &mut Vec<[u8; ROW_VERTEX]>) {
    let other = [
        r.below_either(usize::from(table.n), ENTRIES + 1) as u8,
        r.below_either(2, AGES + 1) as u8,
        r.below_either(6, ENTRIES + 1) as u8,
    ];
    let count = listed.len();
    match r.below(6) {
        0 if count > 0 => drop(listed.remove(r.below(count))),
        1 if count > 0 => {
            let at = r.below(count);
            listed.insert(at, listed[at]);
        }
        2 if count > 0 => {
            let part = r.below(ROW_VERTEX);
            listed[r.below(count)][part] = other[part];
        }
        3 if count > 1 => listed.swap(r.below(count), r.below(count)),
        _ => {
            if count > 0 && r.coin() {
                listed.remove(r.below(count));
            }
            listed.push(other);
            listed.sort_unstable();
        }
    }
}

/// A journal of a table: legal, with a choice that is not, damaged in a few
/// places, or cut short.
pub fn journal(r: &mut Random, table: &Table, rows: usize) -> Vec<u8> {
    let most = r.below(rows) + 1;
    let unfair = if r.one_in(4) { r.below(most) } else { most };
    let mut found = rows_of(r, table, most, unfair);
    let damages = r.pick(&[0, 0, 0, 1, 1, 1, 2, 4]);
    for _ in 0..damages {
        damage_rows(r, table, &mut found);
    }
    let mut bytes = found.concat();
    if r.one_in(8) {
        bytes.truncate(r.below(bytes.len() + 1));
    }
    bytes
}

/// A table whose runs are short enough to end, miss and tie: small costs and
/// deadlines, often equal; at times one whose jobs outlive the period.
pub fn busy_table(r: &mut Random) -> Table {
    if r.one_in(4) {
        return super::long_table(r);
    }
    let n = r.below_either(4, ENTRIES) + 1;
    let mut table = super::table_sized(r, n, 6);
    let most = r.pick(&[2, 3, 6, 12]);
    for i in 0..n {
        let deadline = r.range(1, 4 * most);
        let short = r.range(least_period(deadline), deadline);
        table.tasks[i].deadline = deadline;
        table.tasks[i].period = r.pick(&[short, short, deadline, deadline + 1, deadline + most]);
        super::costs(r, &mut table, i, |r| r.range(1, most));
    }
    table
}

/// An input of the judge program: a table's length and bytes, then a journal
/// of at most so many rows, which are legal, with damage to one, or cut short.
pub fn judge_input(r: &mut Random, rows: usize) -> Vec<u8> {
    let mut table = busy_table(r);
    // Mostly one whose runs do not miss.
    while !r.one_in(8) && crate::sharp::judge_sharp(&table).number != 0 {
        table = busy_table(r);
    }
    let most = r.below(rows + 1);
    let mut found = legal_rows(r, &table, most);
    if r.coin() {
        damage_rows(r, &table, &mut found);
    }
    let mut journal = found.concat();
    if r.one_in(4) {
        journal.truncate(r.below(journal.len() + 1));
    }
    let mut bytes = super::file(&table);
    if r.one_in(12) {
        super::damage(r, &mut bytes);
    }
    program_input(&bytes, &journal)
}

/// A table's length in two bytes, its bytes, and a journal.
pub fn program_input(file: &[u8], journal: &[u8]) -> Vec<u8> {
    let length = u16::try_from(file.len()).expect("a length of two bytes");
    [&length.to_le_bytes()[..], file, journal].concat()
}

/// An input of the judge program with at least so many rows, whose last one
/// misses: one task at a time is released and runs well, then all at once.
pub fn late_miss(r: &mut Random, rows: usize) -> Vec<u8> {
    loop {
        let table = busy_table(r);
        if table.m > 1 && table.n > 2 {
            if let Some(journal) = missing_late(r, &table, rows) {
                return program_input(&super::file(&table), &journal);
            }
        }
    }
}

fn missing_late(r: &mut Random, table: &Table, rows: usize) -> Option<Vec<u8>> {
    let mut state = State::zeros(0, Phase::Running);
    let mut out = Vec::new();
    for row in 0..rows + 100 {
        let ready = (0..usize::from(table.n)).filter(|i| state.tasks[*i].wait == 0);
        let ready: Vec<usize> = ready.collect();
        let idle = state.tasks.iter().all(TaskState::is_idle);
        let set = match row < rows {
            true if idle && !ready.is_empty() => 1 << r.pick(&ready),
            true => 0,
            false => ready.iter().fold(0, |set, i| set | 1 << i),
        };
        let before = release(table, &state, set);
        let chosen = choice(r, table, &before, true);
        put_row(&mut out, set, &chosen);
        state = go_on(table, &before, set, &chosen).state;
        if state.phase != Phase::Running {
            return Some(out).filter(|_| row >= rows);
        }
    }
    None
}
