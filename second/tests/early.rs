//! Steps that end early (document 02, M-108): the draws of an exploration, and
//! random runs of larger tables that are accepted.

use second::explore::*;
use second::machine::*;
use second::random::*;
use second::sharp::SHARP;
use second::table::{Table, ENTRIES, ROW};
use second::verdict::{Way, OLD};
use std::collections::BTreeSet;

/// Every time from 1 to the cost, 0 where the cost is 0, of each vertex of the
/// tasks released and of no other; each once, the work left their sum.
#[test]
fn every_time_once() {
    let r = &mut Random::new(115);
    for _ in 0..300 {
        let table = tiny_table(r, true);
        let mut table = table;
        table.costs = table.costs.map(|cost| cost * 2 + cost % 2);
        let before = State::zeros(3, Phase::Running);
        let releases = r.below(1 << table.n) as u16;
        let mut released = release(&table, &before, releases);
        let (mut drawn, mut times) = (BTreeSet::new(), 0);
        each_draw(&table, &mut released, releases, Times::Early, |state| {
            times += 1;
            drawn.insert(state.remaining);
            for (at, rest) in state.remaining.iter().enumerate() {
                let named = at < ROW && releases >> (at / ENTRIES) & 1 == 1;
                let cost = if named { table.costs[at] } else { 0 };
                assert!((cost.min(1)..=cost).contains(rest));
            }
            let mut summed_up = *state;
            summed_up.sum_up();
            assert_eq!(*state, summed_up);
            true
        });
        let of_task = |i: usize| table.costs_of(i).iter().map(|cost| (*cost).max(1));
        let named = (0..ENTRIES).filter(|i| releases >> i & 1 == 1);
        let all: u32 = named.flat_map(of_task).product();
        assert_eq!((times, drawn.len()), (all, all as usize));
    }
}

/// With early ends an exploration reaches what stated costs reach, and more.
#[test]
fn early_ends_reach_more() {
    let r = &mut Random::new(116);
    let (mut seen, mut more) = (KeySet::new(), 0);
    for _ in 0..300 {
        let table = tiny_fork(r, |table| accepts(Rule::Sharp, table));
        let stated = explore(&table, STATED, &mut seen);
        let early = explore(&table, EARLY, &mut seen);
        assert!(early.states >= stated.states && early.ticks >= stated.ticks);
        assert_eq!((stated.wrong, early.wrong), (None, None));
        more += u32::from(early.states > stated.states);
    }
    assert!(more > 150, "{more}");
}

/// A job's own times: all of them small, all but one whole, or any.
fn draw(r: &mut Random, table: &Table, released: &mut State, releases: u16) {
    let kind = r.below(3);
    for (i, age) in new_jobs(table, released, releases) {
        let lone = r.below(usize::from(table.tasks[i].v));
        for h in 0..usize::from(table.tasks[i].v) {
            let rest = &mut released.remaining[ENTRIES * job_at(i, age) + h];
            let any = r.range((*rest).min(1), *rest);
            *rest = match kind {
                0 => any.min(2),
                1 if h != lone => *rest,
                _ => any,
            };
        }
    }
    released.sum_up();
}

/// A random run: no miss, no chain of what truly remains longer than the ticks
/// left; ticks run plus what remains are the times drawn. How many ticks had
/// nothing to spare.
fn run(r: &mut Random, table: &Table, ticks: usize) -> u32 {
    let mut state = State::zeros(r.number(), Phase::Running);
    let mut full = 0;
    // Of each live job, by task and age place: the times drawn and the ticks run.
    let mut jobs: [Vec<[u64; 2]>; ENTRIES] = Default::default();
    for _ in 0..ticks {
        let releases = releases(r, table, &state);
        let mut released = release(table, &state, releases);
        draw(r, table, &mut released, releases);
        for (i, age) in new_jobs(table, &released, releases) {
            jobs[i].push([released.work[job_at(i, age)], 0]);
        }
        assert_eq!(chain_too_long(table, &released), None, "{table:?}");
        let chosen = choice(r, table, &released, true);
        full += u32::from(chosen.len() == usize::from(table.m));
        for (i, age, _) in &chosen {
            jobs[usize::from(*i)][usize::from(*age)][1] += 1;
        }
        let moved = go_on(table, &released, releases, &chosen);
        assert_eq!(moved.missed, None, "{table:?}");
        state = moved.state;
        for (i, jobs) in jobs.iter_mut().enumerate() {
            jobs.retain(|[drawn, ran]| ran < drawn);
            let live = state.tasks[i].jobs().count();
            assert_eq!(live, jobs.len());
            for (age, [drawn, ran]) in jobs.iter().enumerate() {
                assert_eq!(ran + state.work[job_at(i, age)], *drawn);
            }
        }
    }
    full
}

/// Tables near the edge of each verdict, too large to explore.
#[test]
fn random_runs_of_accepted_tables() {
    let r = &mut Random::new(117);
    for way in [OLD, SHARP] {
        let (mut tables, mut full) = (0, 0);
        while tables < 1_500 {
            let table = accepted(r, &way);
            if let Some(table) = table {
                tables += 1;
                full += run(r, &table, 120);
            }
        }
        assert!(full > 10_000, "{full}");
    }
}

fn accepted(r: &mut Random, way: &Way) -> Option<Table> {
    let n = r.below(5) + 1;
    let scale = r.pick(&[8, 20, 40]);
    let table = if r.one_in(3) {
        short_beside_long(r, scale / 4)
    } else {
        near_edge_of(r, way, n, 6, scale)
    };
    (way.judge(&table).number == 0).then_some(table)
}
