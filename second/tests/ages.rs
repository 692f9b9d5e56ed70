//! Document 02, M-109: deadlines longer than the period. Its sentences one by
//! one.

use second::examples::{plain_task, table_of_one};
use second::judge::put_row;
use second::machine::*;
use second::random::*;
use second::table::{AGES, ENTRIES};
use second::watch::Run;
use second::*;

/// A state of such a table at this clock: ticks left of each job, and what
/// remains of it.
fn state_of(clock: u32, wait: u32, jobs: &[(u32, u32)]) -> State {
    let mut state = State::zeros(clock, Phase::Running);
    state.tasks[0].wait = wait;
    for (age, (left, rest)) in jobs.iter().enumerate() {
        let mut row = [0; ENTRIES];
        row[0] = *rest;
        state.put_job(0, age, clock.wrapping_add(*left), &row);
    }
    state
}

/// "The thread-wear job repeats each 200 ticks and has 600 to finish."
fn thread_wear() -> Table {
    table_of_one(3, 600, 200, 500)
}

/// "In a fitting state jobs are kept oldest first, each next deadline at least T
/// ticks after the one before"
#[test]
fn the_order_of_jobs() {
    let table = thread_wear();
    for clock in [0, 1_000, u32::MAX - 350] {
        let with = |jobs: &[(u32, u32)]| fits(&table, &state_of(clock, 199, jobs));
        assert!(with(&[(100, 7), (300, 9), (500, 500)]));
        assert!(with(&[(1, 7), (201, 9), (599, 500)]));
        assert!(with(&[(100, 7), (300, 9)]) && with(&[(599, 7)]) && with(&[]));
        // Too near by one, equal, turned round, outside 1 to D - 1.
        assert!(!with(&[(100, 7), (299, 9), (500, 500)]));
        assert!(!with(&[(100, 7), (300, 9), (499, 500)]));
        assert!(!with(&[(100, 7), (100, 9)]) && !with(&[(300, 7), (100, 9)]));
        assert!(!with(&[(0, 7), (300, 9)]) && !with(&[(100, 7), (600, 9)]));
        assert!(!with(&[(u32::MAX, 7), (300, 9)]));
        // Nothing remains of one, more than its cost of another.
        assert!(!with(&[(100, 0), (300, 9)]) && !with(&[(100, 7), (300, 501)]));
    }
}

/// "The wait is below T and, while any is live, at least T minus D plus the
/// newest one's ticks left"
#[test]
fn the_wait_beside_the_newest() {
    let table = thread_wear();
    let waits = |jobs: &[(u32, u32)]| {
        let fitting = (0..=201).filter(|wait| fits(&table, &state_of(5, *wait, jobs)));
        let fitting: Vec<u32> = fitting.collect();
        (fitting[0], fitting[fitting.len() - 1], fitting.len())
    };
    assert_eq!(waits(&[]), (0, 199, 200));
    assert_eq!(waits(&[(599, 1)]), (199, 199, 1));
    assert_eq!(waits(&[(100, 1), (500, 1)]), (100, 199, 100));
    assert_eq!(waits(&[(401, 1)]), (1, 199, 199));
    // The bound is 0, and then negative.
    assert_eq!(waits(&[(400, 1)]), (0, 199, 200));
    assert_eq!(waits(&[(1, 1), (201, 1)]), (0, 199, 200));
}

/// Places without a job are zero and come after the live ones.
#[test]
fn places_without_a_job() {
    let table = thread_wear();
    let sound = state_of(5, 150, &[(100, 7), (300, 9)]);
    assert!(fits(&table, &sound));
    let changes: [fn(&mut State); 8] = [
        |s| s.clear_job(0, 0),
        |s| s.copy_job(0, 1, 2),
        |s| s.tasks[0].deadlines[1] = None,
        |s| s.tasks[0].deadlines[3] = Some(505),
        |s| s.remaining[512] = 1,
        |s| s.work[32] = 1,
        |s| s.work[16] = 8,
        |s| s.tasks[1].deadlines[0] = Some(105),
    ];
    for change in changes {
        let mut state = sound;
        change(&mut state);
        assert!(!fits(&table, &state));
        let ticked = tick(&file(&table), &state, 0);
        assert_eq!((ticked.answer.number, ticked.state), (30, state));
    }
}

/// Lists of ticks left at the four age places, 0 for none.
fn each_places(deadline: u32, mut each: impl FnMut([u32; AGES])) {
    for code in 0..(deadline + 1).pow(AGES as u32) {
        let digit = |age: u32| code / (deadline + 1).pow(age) % (deadline + 1);
        each([digit(0), digit(1), digit(2), digit(3)]);
    }
}

/// "Show that a fifth place is never needed": in every fitting state, reached or
/// not, a task with wait 0 has at most three live jobs. Four it may have while
/// it waits.
#[test]
fn a_fifth_place_is_never_needed() {
    let (mut may, mut waits) = ([0u32; AGES + 1], [0u32; AGES + 1]);
    for period in 1..=3 {
        for deadline in 1..=4 * period {
            let table = table_of_one(8, deadline, period, 1);
            each_places(deadline, |left| {
                let mut state = State::zeros(u32::MAX - 4, Phase::Running);
                for (age, left) in left.iter().enumerate().filter(|(_, left)| **left > 0) {
                    state.put_job(0, age, state.clock.wrapping_add(*left), table.costs_of(0));
                }
                for wait in 0..period {
                    state.tasks[0].wait = wait;
                    if fits(&table, &state) {
                        let met = if wait == 0 { &mut may } else { &mut waits };
                        met[state.tasks[0].jobs().count()] += 1;
                    }
                }
            });
        }
    }
    assert_eq!((may[4], waits[4] > 0), (0, true));
    assert!(may[..4].iter().all(|count| *count > 0), "{may:?}");
    let r = &mut Random::new(91);
    for _ in 0..20_000 {
        let table = busy_table(r);
        let state = fitting(r, &table);
        let most = |task: &TaskState| task.wait > 0 || task.jobs().count() < AGES;
        assert!(state.tasks.iter().all(most));
    }
}

/// m 8, D 16, T 4 and cost 13: the old verdict refuses it, the sharp one's
/// margin is 0, and its fourth job comes in the first one's last tick.
#[test]
fn four_at_once() {
    let table = table_of_one(8, 16, 4, 13);
    let bytes = file(&table);
    let (old, new) = (verdict(&bytes), sharp(&bytes));
    assert_eq!((old.number, old.margin), (20, -15));
    assert_eq!((new.number, new.margin), (0, 0));
    let mut state = open(&bytes, u32::MAX - 8).state;
    for at in 0..40 {
        let answer = tick_in_place(&bytes, &mut state, u16::from(at % 4 == 0));
        assert_eq!(
            (answer.number, answer.finished),
            (0, u16::from(at % 4 == 0 && at > 11))
        );
        let live = (at / 4 + 1).min(if at % 4 == 0 { 4 } else { 3 });
        let ran: Vec<Vertex> = (0..live).map(|age| (0, age, 0)).collect();
        assert_eq!(answer.ran[..ran.len()], ran);
        assert!(answer.ran[ran.len()..].iter().all(|v| *v == NO_VERTEX));
        assert!(fits(&table, &state));
    }
}

/// "Age place 0 the oldest, counted once the tick's releases are made; run lists
/// rank by ticks left, task, age place, vertex", and "a job's end closes its
/// gap". A live task with wait 0 may be named.
#[test]
fn run_lists_name_age_places() {
    let mut table = table_of_one(4, 4, 4, 2);
    table.n = 2;
    plain_task(&mut table, 1, 8, 4, &[4, 5]);
    let bytes = file(&table);
    let mut state = open(&bytes, 0).state;
    let sets = [2, 0, 0, 0, 3, 0];
    let answers = sets.map(|set| tick_in_place(&bytes, &mut state, set));
    let ran = |at: usize| answers[at].ran;
    let none = NO_VERTEX;
    assert_eq!(ran(0)[..3], [(1, 0, 0), (1, 0, 1), none]);
    // All have 4 ticks left but the newest, which has 8.
    let five = [(0, 0, 0), (1, 0, 1), (1, 1, 0), (1, 1, 1), none];
    assert_eq!(ran(4)[..5], five);
    assert_eq!((answers[4].number, answers[4].finished), (0, 2));
    // The first job of task 1 has ended, so the second is the oldest.
    assert_eq!(ran(5)[..4], [(0, 0, 0), (1, 0, 0), (1, 0, 1), none]);
    assert_eq!(answers[5].finished, 1);
    assert_eq!(state.tasks[1].deadlines, [Some(12), None, None, None]);
    assert_eq!((state.work[1], state.work[17]), (5, 0));
}

/// "The finished set names a task if any of its jobs finished": once for two, and
/// also where another of its jobs misses.
#[test]
fn jobs_that_end_together() {
    let table = table_of_one(2, 8, 2, 3);
    let bytes = file(&table);
    let both = state_of(9, 0, &[(2, 1), (4, 1)]);
    let ticked = tick(&bytes, &both, 0);
    assert_eq!((ticked.answer.number, ticked.answer.finished), (0, 1));
    assert_eq!(ticked.state, State::zeros(10, Phase::Running));
    let late = state_of(9, 0, &[(1, 2), (4, 1)]);
    let ticked = tick(&bytes, &late, 1);
    let answer = ticked.answer;
    assert_eq!((answer.number, answer.task, answer.finished), (34, 0, 1));
    assert_eq!(answer.ran[..3], [(0, 0, 0), (0, 1, 0), NO_VERTEX]);
    assert_eq!(ticked.state, State::zeros(10, Phase::Stopped(0)));
}

/// "A miss names the lowest task."
#[test]
fn the_lowest_task_that_misses() {
    let mut table = table_of_one(1, 8, 2, 3);
    table.n = 3;
    plain_task(&mut table, 1, 4, 1, &[2]);
    plain_task(&mut table, 2, 4, 1, &[2]);
    let mut state = state_of(9, 0, &[(3, 1), (5, 1)]);
    for task in [2, 1] {
        state.put_job(task, 0, 10, table.costs_of(task));
    }
    let ticked = tick(&file(&table), &state, 0);
    assert_eq!((ticked.answer.number, ticked.answer.task), (34, 1));
}

/// Two jobs of a table run as lines and as a journal, three bytes a vertex.
#[test]
fn lines_and_rows() {
    let table = file(&table_of_one(2, 8, 2, 3));
    let releases = vec![1, 0, 1, 1, 0];
    let run = Run {
        table: table.clone(),
        clock: 0,
        releases,
    };
    let text = String::from_utf8(watch(&run.input())).unwrap();
    let expected = "\
open 0 processors 2 tasks 1
tick 0 release 0 run 0.0.0 finish - left 0.0:2
tick 1 release - run 0.0.0 finish - left 0.0:1
tick 2 release 0 run 0.0.0 0.1.0 finish 0 left 0.0:2
tick 3 release 0 refuse 33 task 0
tick 3 release - run 0.0.0 finish - left 0.0:1
";
    assert_eq!(text, expected);
    let ruled = |third: &[Vertex], fourth: &[Vertex]| {
        let mut journal = Vec::new();
        put_row(&mut journal, 1, &[(0, 0, 0)]);
        put_row(&mut journal, 0, &[(0, 0, 0)]);
        assert_eq!(journal.len(), 2 * (5 + 3));
        put_row(&mut journal, 1, third);
        put_row(&mut journal, 0, fourth);
        let ruling = judge(&table, &journal);
        (ruling.number, ruling.row, ruling.rows)
    };
    let both = [(0, 0, 0), (0, 1, 0)];
    assert_eq!(ruled(&both, &both[..1]), (0, 0, 4));
    // The second job is at age place 0 once the first has ended.
    assert_eq!(ruled(&both, &both[1..]), (44, 3, 0));
    assert_eq!(ruled(&[(0, 0, 0), (0, 2, 0)], &[]), (44, 2, 0));
    assert_eq!(ruled(&both[..1], &[]), (45, 2, 0));
}

/// Of two jobs of one task the older goes first, and no tie is between them.
#[test]
fn the_older_job_goes_first() {
    let table = file(&table_of_one(1, 8, 2, 3));
    let mut journal = Vec::new();
    for (set, age) in [(1, 0), (0, 0), (1, 1)] {
        put_row(&mut journal, set, &[(0, age, 0)]);
    }
    let ruling = judge(&table, &journal);
    assert_eq!((ruling.number, ruling.row), (46, 2));
}
