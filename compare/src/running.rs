//! Runs: opening at any clock, often near its wrap, then tick after tick with releases that are allowed and some that are not, until a
//! while after a deadline is missed.

use crate::comparison::{same, Comparison, Difference};
use crate::face;
use crate::ticking::{any_releases, lively, tick_both, Input};
use second::random::*;

pub const RUNNING: Comparison = Comparison {
    name: "run",
    one,
    share: 8,
    must_meet: &[0, 31, 32, 33, 34],
};

/// The most ticks of a run.
const TICKS: usize = 40;

/// The number of a run is that of its last tick.
fn one(r: &mut Random) -> Result<u8, Difference> {
    let table = lively(r);
    let bytes = file(&table);
    let clock = clock(r);
    let opened = second::flat::open(&bytes, clock);
    let theirs = face::OpenAnswer::from(&opened);
    same(0, &face::open(&bytes, clock), &theirs, || {
        format!("{table:?}\nclock {clock}")
    })?;
    let mut input = Input {
        bytes,
        state: opened.state,
        releases: 0,
    };
    let mut last = 0;
    for _ in 0..=r.below(TICKS) {
        if let Some(state) = input.state.state() {
            input.releases = any_releases(r, &table, &state);
        }
        let ticked = tick_both(&input)?;
        last = ticked.answer.number;
        input.state = ticked.state;
    }
    Ok(last)
}

/// Any clock, often a few ticks before its wrap.
fn clock(r: &mut Random) -> u32 {
    let before = r.range(0, 30);
    if r.coin() {
        0u32.wrapping_sub(before)
    } else {
        r.number()
    }
}
