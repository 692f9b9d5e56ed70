//! All legal choices of a tick, in document 01's wide sense: min(m, available)
//! vertices that pass over no available vertex with fewer ticks left than one
//! chosen.

use crate::machine::{held_back, left_of, rank, rank_by, vertex_of, Held, State, Vertex};
use crate::table::Table;

/// Calls `each` with every legal choice, as a set in rank order, for a state
/// with the tick's releases made; stops early when `each` says false. Gives
/// whether it went through to the end.
pub fn each_choice(table: &Table, released: &State, each: impl FnMut(&[Vertex]) -> bool) -> bool {
    each_choice_by(table, released, held_back, each)
}

/// The same by any rule of what waits.
pub fn each_choice_by(
    table: &Table,
    released: &State,
    held: Held,
    mut each: impl FnMut(&[Vertex]) -> bool,
) -> bool {
    let ranked = rank_by(table, released, held);
    let all = ranked.all();
    let chosen = ranked.first(usize::from(table.m));
    let mut choice: Vec<Vertex> = chosen.iter().copied().map(vertex_of).collect();
    let Some(last) = chosen.last() else {
        return each(&choice);
    };
    // Those with fewer ticks left than the last chosen must run; the other
    // places go to any of those that tie with it.
    let must = all.partition_point(|entry| left_of(*entry) < left_of(*last));
    let upto = all.partition_point(|entry| left_of(*entry) <= left_of(*last));
    let mut picks: Vec<usize> = (must..chosen.len()).collect();
    loop {
        for (place, pick) in choice[must..].iter_mut().zip(&picks) {
            *place = vertex_of(all[*pick]);
        }
        if !each(&choice) {
            return false;
        }
        if !next_picks(&mut picks, upto) {
            return true;
        }
    }
}

/// The next ascending list of indices below `upto`, if there is one.
fn next_picks(picks: &mut [usize], upto: usize) -> bool {
    let count = picks.len();
    for place in (0..count).rev() {
        if picks[place] < upto - (count - place) {
            picks[place] += 1;
            for later in place + 1..count {
                picks[later] = picks[later - 1] + 1;
            }
            return true;
        }
    }
    false
}

/// Whether a set of vertices is a legal choice, told from the definition.
pub fn is_legal(table: &Table, released: &State, choice: &[Vertex]) -> bool {
    let ranked = rank(table, released);
    let all = ranked.all();
    let chosen = |entry: &&u64| choice.contains(&vertex_of(**entry));
    let hits = all.iter().filter(chosen).count();
    let latest = all.iter().filter(chosen).map(|e| left_of(*e)).max();
    let passed = all.iter().filter(|e| !chosen(e)).map(|e| left_of(*e)).min();
    let fair = match (latest, passed) {
        (Some(latest), Some(passed)) => passed >= latest,
        _ => true,
    };
    choice.len() == usize::from(table.m).min(all.len()) && hits == choice.len() && fair
}
