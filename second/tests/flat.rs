//! Flat states: which are states, and that one comes back as it went.

use second::flat::{self, FlatState, FlatTask};
use second::machine::{Answer, Phase, State};
use second::random::*;
use second::table::{Table, Task, MOST_TICKS};

fn small(r: &mut Random) -> second::Table {
    let n = r.below(4) + 1;
    near_edge(r, n, 4, 30)
}

/// No byte of a flat state is left over.
#[test]
fn the_layout() {
    use std::mem::{offset_of, size_of};
    assert_eq!(size_of::<FlatTask>(), 4 + 4 * 4 + 4);
    assert_eq!(offset_of!(FlatTask, deadline), 4);
    assert_eq!(offset_of!(FlatTask, live), 20);
    let at = [
        offset_of!(FlatState, work),
        offset_of!(FlatState, clock),
        offset_of!(FlatState, stopped),
        offset_of!(FlatState, at),
        offset_of!(FlatState, pad),
        offset_of!(FlatState, tasks),
        offset_of!(FlatState, remaining),
    ];
    assert_eq!(at, [0, 512, 516, 517, 518, 520, 520 + 16 * 24]);
    assert_eq!(size_of::<FlatState>(), 904 + 1_024 * 4);
}

/// Two tasks, the first with a step behind another one, and D four times T.
fn four_deep() -> Table {
    let mut table = Table {
        m: 1,
        n: 2,
        ..Table::ZERO
    };
    for (i, v) in [(0, 2), (1, 1)] {
        table.tasks[i] = Task {
            v,
            deadline: 20,
            period: 5,
            succ: [0; 16],
        };
    }
    table.tasks[0].succ[0] = 2;
    table.costs[..2].copy_from_slice(&[2, 3]);
    table.costs[16] = 4;
    table
}

/// Three live jobs of the first task, as near to one another as may be, across the clock's wrap.
fn three_jobs(table: &Table) -> FlatState {
    let mut state = State::zeros(u32::MAX - 6, Phase::Running);
    for (age, left, done) in [(0, 3, [0, 1]), (1, 8, [1, 3]), (2, 13, [2, 3])] {
        let mut rest = [0; 16];
        rest[..2].copy_from_slice(&done);
        state.put_job(0, age, state.clock.wrapping_add(left), &rest);
    }
    assert!(second::machine::fits(table, &state));
    FlatState::from(&state)
}

/// A change to a state.
type Change = fn(&mut FlatState);

/// What makes three jobs no state that fits, and how: some are no states, some are and fit no table.
const UNFIT: [(&str, Change); 20] = [
    ("a gap behind the oldest", |s| swap_jobs(s, 0, 1, 3)),
    ("a gap before the oldest", |s| swap_jobs(s, 0, 0, 3)),
    ("a wrong order", |s| swap_jobs(s, 0, 0, 1)),
    ("jobs too near by one tick", |s| {
        s.tasks[0].deadline[2] = s.tasks[0].deadline[2].wrapping_sub(1)
    }),
    ("one before the wrap too near to one behind", |s| {
        s.tasks[0].deadline[0] = s.tasks[0].deadline[0].wrapping_add(1)
    }),
    ("two with one deadline", |s| {
        s.tasks[0].deadline[2] = s.tasks[0].deadline[1]
    }),
    ("a deadline of now", |s| s.tasks[0].deadline[0] = s.clock),
    ("a wait of T", |s| s.tasks[0].wait = 5),
    ("work above its sum", |s| s.work[32] += 1),
    ("work below its sum", |s| s.work[16] -= 1),
    ("work without a job", |s| s.work[48] = 1),
    ("work of a task that is not there", |s| s.work[50] = 1),
    ("something left without a job", |s| {
        s.remaining[256 * 3] = 1;
        s.work[48] = 1;
    }),
    ("nothing left of a job", |s| {
        s.remaining[1] = 0;
        s.work[0] = 0;
    }),
    ("a deadline without a job", |s| s.tasks[0].deadline[3] = 5),
    ("no job where one is", |s| s.tasks[0].live[2] = 0),
    ("a live byte of 2", |s| s.tasks[0].live[2] = 2),
    ("a task while it runs", |s| s.at = 1),
    ("the first pad", |s| s.pad[0] = 1),
    ("the second pad", |s| s.pad[1] = 128),
];

#[test]
fn what_fits_no_table() {
    let table = four_deep();
    let (bytes, good) = (file(&table), three_jobs(&table));
    assert_eq!(flat::tick(&bytes, &good, 1).answer.number, 0);
    for (what, change) in UNFIT {
        let mut state = good;
        change(&mut state);
        let ticked = flat::tick(&bytes, &state, 0);
        assert_eq!(ticked.answer.number, 30, "{what}");
        assert_eq!(ticked.state, state, "{what}");
    }
}

/// The least wait beside the newest job's ticks left, and one less.
#[test]
fn the_least_wait() {
    let table = four_deep();
    let bytes = file(&table);
    let mut state = three_jobs(&table);
    state.tasks[0].deadline[2] = state.clock.wrapping_add(18);
    state.tasks[0].wait = 3;
    assert_eq!(flat::tick(&bytes, &state, 0).answer.number, 0);
    state.tasks[0].wait = 2;
    assert_eq!(flat::tick(&bytes, &state, 0).answer.number, 30);
}

#[test]
fn a_state_comes_back() {
    let r = &mut Random::new(71);
    for _ in 0..20_000 {
        let table = small(r);
        let base = fitting(r, &table);
        let changes = r.below(4);
        let state = damaged_state(r, &base, changes);
        assert_eq!(FlatState::from(&state).state(), Some(state));
    }
}

#[test]
fn what_is_a_state_is_flat_as_it_was() {
    let r = &mut Random::new(72);
    let (mut states, mut others) = (0, 0);
    for _ in 0..40_000 {
        let table = small(r);
        let state = fitting(r, &table);
        let changes = r.below(3);
        let flat = damaged_flat(r, &table, &FlatState::from(&state), changes);
        match flat.state() {
            Some(state) => {
                states += 1;
                assert_eq!(FlatState::from(&state), flat);
            }
            None => others += 1,
        }
    }
    assert!(states > 10_000 && others > 5_000, "{states} {others}");
}

fn named(answer: &Answer) -> (u8, u8, usize) {
    (answer.number, answer.task, answer.place)
}

#[test]
fn numbers_where_the_state_has_none() {
    let table = tiny_table(&mut Random::new(73), true);
    let bytes = file(&table);
    let good = FlatState::from(&State::zeros(5, Phase::Running));
    assert_eq!(flat::tick(&bytes, &good, 0).answer.number, 0);
    let bad: [Change; 9] = [
        |s| s.stopped = 2,
        |s| s.at = 1,
        |s| s.pad[0] = 1,
        |s| s.pad[1] = 255,
        |s| s.tasks[0].live[0] = 2,
        |s| s.tasks[0].live[3] = 255,
        |s| s.tasks[0].deadline[0] = 1,
        |s| s.tasks[7].deadline[3] = 1,
        |s| s.tasks[15].deadline[2] = MOST_TICKS,
    ];
    for change in bad {
        let mut state = good;
        change(&mut state);
        assert_eq!(state.state(), None);
        let ticked = flat::tick(&bytes, &state, 1);
        assert_eq!(named(&ticked.answer), (30, 255, 0));
        assert_eq!(ticked.state, state);
        // Reading's numbers go first.
        let ticked = flat::tick(&bytes[..3], &state, 1);
        assert_eq!(named(&ticked.answer), (1, 255, 3));
        assert_eq!(ticked.state, state);
    }
}
