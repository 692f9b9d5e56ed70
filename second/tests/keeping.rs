//! How a task's jobs are kept (document 02, M-109): the explorer finds nothing
//! wrong with tables of long deadlines, and every weaker way of keeping them.

use second::examples::table_of_one;
use second::explore::*;
use second::machine::*;
use second::random::*;
use second::table::{Table, AGES};

fn wrong(table: &Table, how: How) -> Option<Wrong> {
    explore(table, how, &mut KeySet::new()).wrong.map(|it| it.0)
}

/// Tables that a rule accepts, T up to `most`; most live jobs at once.
fn never_wrong(rule: Rule, how: How, most: u32, tables: u32) -> usize {
    let r = &mut Random::new(92);
    let mut seen = KeySet::new();
    let (mut live, mut long) = (0, 0);
    for _ in 0..tables {
        let table = tiny_long(r, most, |table| accepts(rule, table));
        let found = explore(&table, how, &mut seen);
        assert_eq!(found.wrong, None, "{table:?}");
        live = live.max(found.most_live);
        long += u32::from(table.tasks[0].deadline > table.tasks[0].period);
    }
    assert!(long > tables / 3);
    live
}

#[test]
fn long_deadlines_never_miss() {
    for rule in [Rule::Verdict, Rule::Sharp] {
        let live = never_wrong(rule, STATED, 3, 150);
        assert!(live > 1, "{live}");
        never_wrong(rule, EARLY, 2, 150);
    }
}

/// D 16 and T 4, as one step of 13 ticks or as a chain of 7 and 6.
fn four_live() -> [Table; 2] {
    let mut chain = table_of_one(8, 16, 4, 7);
    chain.tasks[0].v = 2;
    chain.tasks[0].succ[0] = 0b10;
    chain.costs[1] = 6;
    [table_of_one(8, 16, 4, 13), chain]
}

/// Four at once, and the fourth needs its place.
#[test]
fn three_places_lose_a_job() {
    for table in four_live() {
        assert!(accepts(Rule::Sharp, &table) && !accepts(Rule::Verdict, &table));
        let found = explore(&table, STATED, &mut KeySet::new());
        assert_eq!((found.wrong, found.most_live), (None, AGES));
        let three = How {
            keeping: THREE_PLACES,
            ..STATED
        };
        assert_eq!(wrong(&table, three), Some(Wrong::Lost(0)));
    }
}

/// The same where steps end early.
#[test]
fn four_at_once_that_end_early() {
    for table in four_live() {
        let found = explore(&table, EARLY, &mut KeySet::new());
        println!("{} states", found.states);
        assert_eq!((found.wrong, found.most_live), (None, AGES));
    }
}

/// A fifth release that takes the oldest's place is never told from the truth:
/// it never comes. It would if the wait were not heeded.
#[test]
fn a_fifth_release_never_comes() {
    let fifth = How {
        keeping: FIFTH_OVER_OLDEST,
        ..STATED
    };
    let right = explore(&table_of_one(8, 16, 4, 13), STATED, &mut KeySet::new());
    assert_eq!(
        explore(&table_of_one(8, 16, 4, 13), fifth, &mut KeySet::new()),
        right
    );
    let table = table_of_one(8, 16, 4, 16);
    let mut state = State::zeros(0, Phase::Running);
    for at in 0..13 {
        state = tick_table(&table, &state, u16::from(at % 4 == 0)).state;
    }
    assert_eq!(
        (state.tasks[0].jobs().count(), state.tasks[0].wait),
        (AGES, 3)
    );
    assert_eq!(tick_table(&table, &state, 1).answer.number, 33);
    state.tasks[0].wait = 0;
    assert_eq!(tick_table(&table, &state, 1).answer.number, 30);
    let over = release_by(&table, &state, 1, FIFTH_OVER_OLDEST);
    assert_eq!(over.tasks[0].deadlines[0], state.tasks[0].deadlines[1]);
}

#[test]
fn weaker_ways_are_found() {
    let table = table_of_one(3, 8, 2, 4);
    assert!(accepts(Rule::Verdict, &table));
    assert_eq!(wrong(&table, STATED), None);
    for keeping in [GAPS_LEFT, NEWEST_FIRST] {
        let how = How { keeping, ..STATED };
        assert_eq!(wrong(&table, how), Some(Wrong::Misfit));
    }
    // A job that lives for more than T ticks, the wait at 0.
    let equal = How {
        fits: fits_with_equal_wait,
        ..STATED
    };
    assert_eq!(wrong(&table, equal), Some(Wrong::Misfit));
}

/// Told by the newest job, or 0: seen with stated costs, where no job overtakes
/// an older one of its task; not where steps end early.
#[test]
fn the_wait_is_more_than_the_newest_job_tells() {
    let told = |how: How| How {
        fits: fits_with_wait_told,
        ..how
    };
    let table = table_of_one(3, 8, 2, 4);
    assert_eq!(wrong(&table, EARLY), None);
    assert_eq!(wrong(&table, told(EARLY)), Some(Wrong::Misfit));
    for rule in [Rule::Verdict, Rule::Sharp] {
        never_wrong(rule, told(STATED), 3, 150);
    }
}

/// Of random tables with long deadlines, how many tell each weaker way.
#[test]
fn how_many_tables_tell() {
    let keeping = |keeping| How { keeping, ..STATED };
    let equal = How {
        fits: fits_with_equal_wait,
        ..STATED
    };
    let ways = [keeping(GAPS_LEFT), keeping(NEWEST_FIRST), equal];
    let r = &mut Random::new(93);
    let mut told = [0; 3];
    for _ in 0..300 {
        let table = tiny_long(r, 3, |table| accepts(Rule::Sharp, table));
        for (count, how) in told.iter_mut().zip(ways) {
            *count += u32::from(wrong(&table, how) == Some(Wrong::Misfit));
        }
    }
    println!("gaps left, newest first, equal wait: {told:?}");
    assert!(told.iter().all(|count| *count > 20), "{told:?}");
}
