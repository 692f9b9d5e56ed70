//! Errors that look right, and impostors: each must be told from the truth.

use second::examples::*;
use second::explore::due_rounded_down;
use second::machine::*;
use second::verdict::figures;
use second::*;

/// Names of the examples that a program gets wrong.
fn wrong(program: &Program) -> Vec<&'static str> {
    let lines = examples(program).into_iter();
    lines
        .filter(|line| !line.ok())
        .map(|line| line.name)
        .collect()
}

#[test]
fn rounding_down() {
    let a = read(&TABLE_A).table;
    assert_eq!(figures(&a, 0).due, 14);
    assert_eq!(due_rounded_down(&a, 0), 4);
}

/// The tick rule with all releases at once and again as soon as allowed.
fn all_at_once_goes_well(table: &Table) -> bool {
    let mut state = State::zeros(0, Phase::Running);
    for _ in 0..240 {
        let ready = (0..usize::from(table.n)).filter(|i| state.tasks[*i].wait == 0);
        let set = ready.fold(0, |set, i| set | 1 << i);
        let ticked = tick_table(table, &state, set);
        if ticked.answer.number != 0 {
            return false;
        }
        state = ticked.state;
    }
    true
}

#[test]
fn a_simulation_that_went_well() {
    let mut table = Table {
        m: 2,
        n: 2,
        ..Table::ZERO
    };
    plain_task(&mut table, 0, 2, 2, &[1, 1, 1]);
    table.tasks[0].succ[2] = 0b011;
    plain_task(&mut table, 1, 1, 6, &[1]);
    assert!(all_at_once_goes_well(&table));
    let bytes = random::file(&table);
    assert_eq!(verdict(&bytes).number, 20);
    // Task 1 released one tick after task 0 misses.
    let mut state = open(&bytes, 0).state;
    assert_eq!(tick_in_place(&bytes, &mut state, 1).number, 0);
    let answer = tick_in_place(&bytes, &mut state, 2);
    assert_eq!((answer.number, answer.task), (34, 1));
}

/// An idle tick changes nothing but the clock, so that a whole round of the
/// clock leads to the same state; then naming is allowed, although the clock
/// less the stored release tick would be 1 again.
#[test]
fn spacing_after_an_idle_spell() {
    let mut state = open(&TABLE_A, 0).state;
    tick_in_place(&TABLE_A, &mut state, 3);
    for _ in 1..20 {
        assert_eq!(tick_in_place(&TABLE_A, &mut state, 0).number, 0);
    }
    assert!(state.tasks.iter().all(|task| *task == TaskState::ZERO));
    for clock in [20, 1_000, u32::MAX - 1, u32::MAX, 0, 1, 11] {
        state.clock = clock;
        let idle = tick(&TABLE_A, &state, 0);
        let on = clock.wrapping_add(1);
        assert_eq!(idle.state, State { clock: on, ..state });
        let named = tick(&TABLE_A, &state, 3).answer;
        assert_eq!((named.number, named.task), (0, 255));
    }
}

/// The tick with deadlines compared as plain numbers.
fn tick_plain_deadlines(bytes: &[u8], state: &State, releases: u16) -> Ticked {
    let mut ticked = tick(bytes, state, releases);
    let table = read(bytes).table;
    let before = release(&table, state, releases);
    let deadline = |entry: &u64| {
        let (task, age, _) = vertex_of(*entry);
        before.tasks[usize::from(task)].deadlines[usize::from(age)]
    };
    let mut all = rank(&table, &before).all().to_vec();
    all.sort_by_key(|entry| (deadline(entry), vertex_of(*entry)));
    all.truncate(usize::from(table.m));
    if ticked.answer.number == 0 {
        for (place, entry) in ticked.answer.ran.iter_mut().zip(&all) {
            *place = vertex_of(*entry);
        }
    }
    ticked
}

#[test]
fn plain_deadlines() {
    let program = Program {
        tick: tick_plain_deadlines,
        ..OWN
    };
    assert_eq!(wrong(&program), ["P12"]);
}

#[test]
fn a_successor_waits_for_the_next_tick() {
    let mut table = Table {
        m: 8,
        n: 1,
        ..Table::ZERO
    };
    plain_task(&mut table, 0, 3, 3, &[1, 1, 1]);
    table.tasks[0].succ[0] = 0b110;
    table.tasks[0].succ[1] = 0b100;
    let bytes = random::file(&table);
    let mut state = open(&bytes, 0).state;
    for h in 0..3 {
        let answer = tick_in_place(&bytes, &mut state, u16::from(h == 0));
        assert_eq!(answer.ran[..2], [(0, 0, h), NO_VERTEX]);
        assert_eq!((answer.number, answer.finished), (0, u16::from(h == 2)));
    }
}

fn narrow(bytes: &[u8]) -> Verdict {
    let right = verdict(bytes);
    let margin = i64::from(right.margin as i32);
    Verdict { margin, ..right }
}

fn unsigned(bytes: &[u8]) -> Verdict {
    let right = verdict(bytes);
    let number = if right.number == 20 { 0 } else { right.number };
    Verdict { number, ..right }
}

fn always_refuses(bytes: &[u8]) -> Verdict {
    let right = verdict(bytes);
    Verdict {
        number: right.number.max(20),
        ..right
    }
}

fn always_yes(bytes: &[u8]) -> Verdict {
    Verdict {
        number: 0,
        ..verdict(bytes)
    }
}

fn invented_margins(bytes: &[u8]) -> Verdict {
    let right = verdict(bytes);
    let margin = if right.number == 20 { -1 } else { 1 };
    Verdict { margin, ..right }
}

#[test]
fn verdicts() {
    let with = |verdict| wrong(&Program { verdict, ..OWN });
    assert_eq!(with(verdict), [""; 0]);
    assert_eq!(with(narrow), ["P5"]);
    assert_eq!(with(unsigned), ["P2", "P4", "P5"]);
    assert_eq!(with(always_refuses), ["P1", "P3"]);
    assert_eq!(with(always_yes), ["P2", "P4", "P5"]);
    assert_eq!(with(invented_margins), ["P1", "P2", "P3", "P4", "P5"]);
}

fn does_nothing(_: &[u8], state: &State, _: u16) -> Ticked {
    let answer = Answer {
        number: 0,
        place: 0,
        task: 255,
        ran: [NO_VERTEX; 8],
        finished: 0,
    };
    let state = *state;
    Ticked { answer, state }
}

/// Runs every vertex to its end in the tick of its release.
fn ends_all_at_once(bytes: &[u8], state: &State, releases: u16) -> Ticked {
    let mut ticked = tick(bytes, state, releases);
    for task in &mut ticked.state.tasks {
        *task = TaskState::idle(task.wait);
    }
    ticked.state.remaining = [0; 1_024];
    ticked.state.work = [0; 64];
    ticked
}

#[test]
fn ticks() {
    let with = |tick| wrong(&Program { tick, ..OWN });
    assert_eq!(with(does_nothing), ["P9", "P10", "P11", "P12"]);
    assert_eq!(with(ends_all_at_once), ["P9", "P11", "P12"]);
}
