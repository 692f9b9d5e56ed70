//! One tick of any state: every byte of the answer and of the next state; the same of a tick in place.

use crate::comparison::{hex, same, Comparison, Difference};
use crate::face;
use second::flat::{FlatState, FlatTicked};
use second::random::*;
use second::table::{least_period, ENTRIES};
use second::verdict::judge;
use second::{State, Table};

pub const TICKING: Comparison = Comparison {
    name: "tick",
    one,
    share: 1,
    must_meet: &[0, 1, 2, 3, 4, 5, 6, 7, 8, 30, 31, 32, 33, 34],
};

/// What a tick takes.
pub struct Input {
    pub bytes: Vec<u8>,
    pub state: FlatState,
    pub releases: u16,
}

fn one(r: &mut Random) -> Result<u8, Difference> {
    let input = input(r);
    tick_both(&input).map(|ticked| ticked.answer.number)
}

/// What both sides give, ours also on a state that is moved on where it stands.
pub fn tick_both(input: &Input) -> Result<FlatTicked, Difference> {
    let found = second::flat::tick(&input.bytes, &input.state, input.releases);
    let theirs = face::Ticked::from(&found);
    let given = face::tick(&input.bytes, input.state, input.releases);
    let mut state = input.state;
    let answer = face::tick_in_place(&mut state, &input.bytes, input.releases);
    let ours = [given, face::Ticked { answer, state }];
    same(theirs.answer.number, &ours, &[theirs; 2], || {
        format!(
            "{}\nstate {:?}\nreleases {:016b}",
            hex(&input.bytes),
            input.state,
            input.releases
        )
    })?;
    Ok(found)
}

/// A table with a state that fits it or nearly, one that is no state, or any numbers; now and then another table than that of the
/// state, damage to its file, or no bytes at all.
pub fn input(r: &mut Random) -> Input {
    let table = lively(r);
    let state = state(r, &table);
    let releases = any_releases(r, &table, &state);
    let flat = flat(r, &table, &state);
    let mut bytes = file(&table);
    match r.below(24) {
        0 => bytes = file(&lively(r)),
        1 => {
            let changes = r.below(2) + 1;
            bytes = raw(&damaged_table(r, &table, changes));
        }
        2 => damage(r, &mut bytes),
        3 => bytes.clear(),
        _ => {}
    }
    Input {
        bytes,
        state: flat,
        releases,
    }
}

/// Tables on which jobs live for some ticks and end or miss, and some of any size.
pub fn lively(r: &mut Random) -> Table {
    match r.below(16) {
        0 => largest_table(r),
        1 => table(r),
        2 | 3 => few_ticks(r, ENTRIES, ENTRIES),
        4..=6 => few_ticks(r, 4, 6),
        7 => {
            let n = r.below(4) + 1;
            near_edge(r, n, 5, 30)
        }
        8..=10 => tiny_long(r, 6, |table| judge(table).number == 0),
        11..=13 => tiny_table(r, true),
        _ => tiny_table(r, false),
    }
}

/// Any graphs, but few ticks to each cost, deadline and period; half of the deadlines are longer than the period.
fn few_ticks(r: &mut Random, tasks: usize, vertices: usize) -> Table {
    let n = r.below(tasks) + 1;
    let mut table = table_sized(r, n, vertices);
    let most = r.range(2, 40);
    for task in &mut table.tasks[..n] {
        task.deadline = r.range(1, most);
        let least = least_period(task.deadline);
        let short = r.range(least, task.deadline);
        let loose = r.range(task.deadline, 2 * most);
        task.period = r.pick(&[least, short, loose, loose]);
    }
    table.costs = table.costs.map(|cost| cost.min(1 + cost % 4));
    table
}

fn state(r: &mut Random, table: &Table) -> State {
    let base = match r.below(4) {
        0 => reached(r, table, 12),
        _ => fitting(r, table),
    };
    if !r.one_in(3) {
        return base;
    }
    let changes = r.below(3) + 1;
    damaged_state(r, &base, changes)
}

fn flat(r: &mut Random, table: &Table, state: &State) -> FlatState {
    let flat = FlatState::from(state);
    match r.below(16) {
        0 => wild_flat(r),
        1..=4 => {
            let changes = r.below(3) + 1;
            damaged_flat(r, table, &flat, changes)
        }
        _ => flat,
    }
}

/// Releases of tasks whose wait is 0, with one task more now and then, or any set.
pub fn any_releases(r: &mut Random, table: &Table, state: &State) -> u16 {
    let allowed = releases(r, table, state);
    match r.below(12) {
        0 => r.word() as u16,
        1 => allowed | 1 << r.below(ENTRIES),
        2 => allowed | 1 << r.below(usize::from(table.n)),
        _ => allowed,
    }
}
