//! The explorer: no miss for accepted tables, a miss as soon as a rule is
//! weakened; the run that it prints leads to the miss.

use second::explore::*;
use second::legal::is_legal;
use second::machine::*;
use second::random::*;
use second::sharp::judge_sharp;
use second::table::{Table, ENTRIES};
use second::verdict::figures;

fn first_wrong(rule: Rule, how: How, seed: u64, tables: u32) -> (u32, Option<(Table, Found)>) {
    let r = &mut Random::new(seed);
    let mut seen = KeySet::new();
    let mut explored = 0;
    while explored < tables {
        let roomy = r.coin();
        let table = if rule.is_sharp() && r.one_in(40) {
            tiny_fork(r, |table| accepts(rule, table))
        } else {
            tiny_table(r, roomy)
        };
        if accepts(rule, &table) {
            explored += 1;
            let found = explore(&table, how, &mut seen);
            if found.wrong.is_some() {
                return (explored, Some((table, found)));
            }
        }
    }
    (explored, None)
}

#[test]
fn accepted_tables_never_miss() {
    for rule in [Rule::Verdict, Rule::Sharp] {
        for how in [STATED, EARLY] {
            assert_eq!(first_wrong(rule, how, 61, 4_000).1, None);
        }
    }
}

#[test]
fn a_weakened_rule_misses() {
    for rule in [
        Rule::SayYes,
        Rule::MarginLess,
        Rule::MarginLessM,
        Rule::RoundDown,
        Rule::SharpOwnTail,
        Rule::SharpFirst,
        Rule::SharpNo22,
    ] {
        let table = must_miss(rule, STATED, 62);
        // A chain longer than D has a negative margin but on one processor.
        assert!(rule != Rule::SharpNo22 || table.m == 1);
    }
}

/// A step that takes one tick more than its cost is what no yes covers.
#[test]
fn a_step_that_ends_late_misses() {
    for rule in [Rule::Verdict, Rule::Sharp] {
        let times = Times::Late;
        must_miss(rule, How { times, ..EARLY }, 65);
    }
}

/// The first table that misses, its run played again.
fn must_miss(rule: Rule, how: How, seed: u64) -> Table {
    let (at, wrong) = first_wrong(rule, how, seed, 4_000);
    let (table, found) = wrong.unwrap_or_else(|| panic!("{rule:?}: no miss in {at} tables"));
    let Some((Wrong::Miss(task), run)) = found.wrong else {
        panic!("{rule:?}: not a miss in table {at}");
    };
    replay(&table, how, task, &run);
    table
}

/// Seen, not promised: among these tables the least margins from 1 - m on
/// never miss, those of -m do. So accepting -1 is told only on one processor.
#[test]
fn the_first_margin_that_misses_is_minus_m() {
    let mut seen = KeySet::new();
    let mut missed = [[0u32; 4]; 4];
    let mut looked = missed;
    small_tables(4, |table| {
        let margins = (0..usize::from(table.n)).map(|k| figures(table, k).margin);
        let below = -margins.min().unwrap();
        if (1..=i64::from(table.m)).contains(&below) {
            let found = explore(table, STATED, &mut seen);
            let at = (usize::from(table.m), below as usize);
            looked[at.0][at.1] += 1;
            missed[at.0][at.1] += u32::from(found.wrong.is_some());
        }
        true
    });
    for m in 1..4 {
        for below in 1..=m {
            assert!(looked[m][below] > 300, "{looked:?}");
            assert_eq!(missed[m][below] > 0, below == m, "{missed:?}");
        }
    }
}

/// Plays a run step by step from another clock: legal throughout, and the
/// miss comes in the last step only.
fn replay(table: &Table, how: How, task: u8, run: &[Step]) {
    let mut state = State::zeros(77, Phase::Running);
    for (at, step) in run.iter().enumerate() {
        assert!(how.times != Times::Stated || fits(table, &state));
        assert!(release_sets(table, &state).any(|set| set == step.releases));
        let mut released = release(table, &state, step.releases);
        for (vertex, ticks) in &step.off_cost {
            let cost = table.costs[ENTRIES * usize::from(vertex.0) + usize::from(vertex.2)];
            assert!((1..=how.times.most(cost)).contains(ticks));
            released.remaining[rest_at(*vertex)] = *ticks;
        }
        released.sum_up();
        assert!(is_legal(table, &released, &step.ran));
        let moved = go_on(table, &released, step.releases, &step.ran);
        let last = at + 1 == run.len();
        assert_eq!(moved.missed, if last { Some(task) } else { None });
        state = moved.state;
    }
}

#[test]
fn packing_goes_both_ways() {
    let r = &mut Random::new(63);
    for _ in 0..5_000 {
        let table = tiny_table(r, true);
        let state = reached(r, &table, 12);
        let packing = Packing::of(&table, Times::Stated).unwrap();
        let back = packing.unpack(packing.pack(&state));
        assert_eq!(packing.pack(&back), packing.pack(&state));
        assert_eq!(fits(&table, &back), fits(&table, &state));
        assert_eq!(back.remaining, state.remaining);
        assert_eq!(back.work, state.work);
    }
}

#[test]
fn what_does_not_go_into_a_key_is_not_packed() {
    let r = &mut Random::new(66);
    assert!(Packing::of(&largest_table(r), Times::Stated).is_none());
}

/// The explorer asks the document's sum, the verdict its closed form.
#[test]
fn the_rule_is_the_verdict() {
    let r = &mut Random::new(67);
    let mut yes = 0;
    for _ in 0..20_000 {
        let table = tiny_table(r, true);
        let said = accepts(Rule::Sharp, &table);
        assert_eq!(said, judge_sharp(&table).number == 0);
        yes += u32::from(said);
        let table = tiny_fork(r, |table| accepts(Rule::Sharp, table));
        let said = accepts(Rule::Sharp, &table);
        assert_eq!(said, judge_sharp(&table).number == 0);
    }
    assert!(yes > 2_000, "{yes}");
}

#[test]
fn the_key_set_is_a_set() {
    let r = &mut Random::new(64);
    let mut keys = KeySet::new();
    for round in 0..20 {
        keys.clear();
        assert!(keys.is_empty());
        let mut plain = std::collections::HashSet::new();
        for _ in 0..round * 500 {
            // Some differ only in the upper half.
            let key = Key::from(r.word() % 2_000) << (64 * r.below(2));
            assert_eq!(keys.insert(key), plain.insert(key));
        }
        assert_eq!(keys.len(), plain.len());
        assert!((0..keys.len()).all(|at| plain.contains(&keys.key(at))));
    }
}

#[test]
fn all_very_small_tables() {
    let mut seen = KeySet::new();
    let (mut count, mut accepted) = (0, 0);
    let whole = small_tables(2, |table| {
        count += 1;
        if accepts(Rule::Verdict, table) {
            accepted += 1;
            assert_eq!(explore(table, STATED, &mut seen).wrong, None);
        }
        true
    });
    // One task: 4 pairs of D and T, 3 + 9 * 3 + 27 * 25 costs with graphs; two
    // tasks: 4 * (3 + 9 * 3) each, in one order; three counts of processors.
    assert_eq!(count, 3 * (4 * 705 + 120 * 121 / 2));
    assert!(whole && accepted > 20, "{accepted}");
}

/// Two tasks the other way round make the same exploration: so the very small
/// tables have each two in one order.
#[test]
fn the_order_of_tasks_is_all_one() {
    let r = &mut Random::new(66);
    let mut seen = KeySet::new();
    let mut looked = 0;
    while looked < 300 {
        let table = tiny_long(r, 3, |table| accepts(Rule::Sharp, table));
        if table.n == 2 {
            looked += 1;
            let mut turned = table;
            turned.tasks.swap(0, 1);
            let (first, second) = turned.costs.split_at_mut(ENTRIES);
            first.swap_with_slice(&mut second[..ENTRIES]);
            assert!(accepts(Rule::Sharp, &turned));
            let found = explore(&table, STATED, &mut seen);
            assert_eq!(explore(&turned, STATED, &mut seen), found);
        }
    }
}
