//! The readings of open places, by their number in docs/DECISIONS.md.

use second::examples::*;
use second::machine::*;
use second::random::*;
use second::table::{ENTRIES, LARGEST, MOST_TICKS};
use second::verdict::figures;
use second::*;

fn put(table: &Table, length: usize) -> (u8, usize) {
    let mut buffer = vec![0xA5; length];
    let answer = write(table, &mut buffer);
    assert!(answer.0 == 0 || buffer.iter().all(|byte| *byte == 0xA5));
    answer
}

/// One task, D = T = 100, costs 1.
fn lone(v: usize) -> Table {
    let mut table = Table {
        m: 2,
        n: 1,
        ..Table::ZERO
    };
    plain_task(&mut table, 0, 100, 100, &vec![1; v]);
    table
}

fn table_a() -> Table {
    read(&TABLE_A).table
}

/// A table of n tasks with one vertex of cost 1 and these D and T.
fn row_of(pairs: &[(u32, u32)]) -> Table {
    let mut table = Table {
        m: 1,
        n: pairs.len() as u8,
        ..Table::ZERO
    };
    for (i, (deadline, period)) in pairs.iter().enumerate() {
        plain_task(&mut table, i, *deadline, *period, &[1]);
    }
    table
}

#[test]
fn d1_edges_count_every_bit() {
    let mut table = lone(16);
    table.tasks[0].succ = [0xFFFF; ENTRIES];
    assert_eq!(put(&table, LARGEST), (3, 7));
    let mut table = lone(8);
    table.tasks[0].succ[..8].fill(0xFFFF);
    assert_eq!(put(&table, LARGEST), (3, 7));
    // 112 bits are within the range: the first of all is an edge 0-0.
    let mut table = lone(7);
    table.tasks[0].succ[..7].fill(0xFFFF);
    assert_eq!(put(&table, LARGEST), (6, 16 + 28));
    // A bad bit stands at its place among all bits; 7 only without a 6.
    let mut table = lone(3);
    table.tasks[0].succ[..3].copy_from_slice(&[0b010, 0b101, 0b1001]);
    assert_eq!(put(&table, LARGEST), (6, 16 + 12 + 2 * 4));
    table.tasks[0].succ[2] = 0b0001;
    assert_eq!(put(&table, LARGEST), (7, 4));
}

#[test]
fn d2_n_or_v_out_of_range() {
    let r = &mut Random::new(81);
    assert_eq!(put(&Table::ZERO, LARGEST), (3, 2));
    for bad in [0, 17, 18, 128, 255] {
        let mut table = wild_table(r);
        table.m = 8;
        table.n = bad;
        assert_eq!(put(&table, LARGEST), (3, 3));
        table.m = 9;
        assert_eq!(put(&table, LARGEST), (3, 2));
        let mut table = wild_table(r);
        (table.m, table.n) = (1, 16);
        table.tasks[0].v = bad;
        assert_eq!(put(&table, LARGEST), (3, 6));
        let mut table = table_a();
        table.tasks[1].v = bad;
        table.tasks[1].succ = [0xFFFF; ENTRIES];
        table.tasks[1].deadline = 0;
        assert_eq!(put(&table, LARGEST), (3, 34));
    }
}

#[test]
fn d3_ten_after_all_of_three_to_seven() {
    let mut table = table_a();
    table.costs[3] = 5;
    assert_eq!(put(&table, 0), (10, 0));
    table.costs[17] = 1_000_001;
    assert_eq!(put(&table, 0), (4, 48));
    table.costs[17] = 2;
    table.costs[3] = 0;
    assert_eq!(put(&table, 0), (9, 52));
}

#[test]
fn d4_what_ten_covers() {
    let changes: [fn(&mut Table); 8] = [
        |t| t.tasks[2].v = 1,
        |t| t.tasks[15].deadline = 1,
        |t| t.tasks[2].period = 1,
        |t| t.tasks[9].succ[15] = 0x8000,
        |t| t.costs[32] = 1,
        |t| t.costs[255] = 1,
        |t| t.costs[18] = 1,
        |t| t.tasks[0].succ[3] = 1,
    ];
    for change in changes {
        let mut table = table_a();
        change(&mut table);
        assert_eq!(put(&table, LARGEST), (10, 0));
    }
    let mut table = table_a();
    table.tasks[0].succ[2] = 0b1000;
    assert_eq!(put(&table, LARGEST), (6, 32));
}

#[test]
fn d13_a_refused_opening() {
    let opened = open(&TABLE_A[..51], 12_345);
    assert_eq!((opened.number, opened.place, opened.task), (1, 48, 255));
    assert_eq!(opened.state, State::zeros(0, Phase::Stopped(255)));
    let opened = open(&TABLE_A, 12_345);
    assert_eq!((opened.number, opened.place, opened.task), (0, 0, 255));
    assert_eq!(opened.state, State::zeros(12_345, Phase::Running));
}

#[test]
fn d14_its_state_never_fits() {
    let state = open(&[], 0).state;
    let r = &mut Random::new(82);
    for _ in 0..200 {
        let ticked = tick(&file(&table(r)), &state, 0);
        assert_eq!((ticked.answer.number, ticked.answer.task), (30, 255));
        assert_eq!(ticked.state, state);
    }
}

#[test]
fn d15_thirty_before_thirty_two() {
    for (task, number) in [(0, 32), (1, 32), (2, 30), (255, 30)] {
        let state = State::zeros(9, Phase::Stopped(task));
        assert_eq!(tick(&TABLE_A, &state, 0xFFFF).answer.number, number);
    }
    let other = file(&row_of(&[(1, 1); 4]));
    let state = State::zeros(9, Phase::Stopped(3));
    assert_eq!(tick(&other, &state, 0).answer.number, 32);
    assert_eq!(tick(&TABLE_A, &state, 0).answer.number, 30);
}

#[test]
fn d16_a_stopped_state_is_zero() {
    let base = State::zeros(9, Phase::Stopped(0));
    let mut live = base;
    live.tasks[1].deadlines[3] = Some(0);
    let mut waits = base;
    waits.tasks[0].wait = 1;
    let mut rest = base;
    rest.remaining[1_023] = 1;
    let mut both = rest;
    both.work[63] = 1;
    for state in [live, waits, rest, both] {
        assert_eq!(tick(&TABLE_A, &state, 0).answer.number, 30);
    }
    for clock in [0, 1, u32::MAX] {
        let state = State { clock, ..base };
        assert_eq!(tick(&TABLE_A, &state, 0).answer.number, 32);
    }
}

#[test]
fn d21_the_same_state_for_readings_numbers_too() {
    let r = &mut Random::new(83);
    for length in 0..52 {
        let state = damaged_state(r, &open(&TABLE_A, 5).state, 4);
        let ticked = tick(&TABLE_A[..length], &state, 3);
        assert_eq!(ticked.answer.number, 1);
        assert_eq!(ticked.answer.place, read(&TABLE_A[..length]).place);
        assert_eq!(ticked.state, state);
        assert_eq!(ticked.answer.ran, [NO_VERTEX; 8]);
        assert_eq!((ticked.answer.finished, ticked.answer.task), (0, 255));
    }
}

#[test]
fn d17_a_miss_hands_out_its_runs_and_ends() {
    let mut table = row_of(&[(1, 1), (1, 2), (1, 3)]);
    table.m = 2;
    table.costs[0] = 2;
    let bytes = file(&table);
    let ticked = tick(&bytes, &open(&bytes, u32::MAX).state, 0b111);
    let answer = ticked.answer;
    assert_eq!((answer.number, answer.task), (34, 0));
    assert_eq!(answer.ran[..3], [(0, 0, 0), (1, 0, 0), NO_VERTEX]);
    assert_eq!(answer.finished, 0b010);
    assert_eq!(ticked.state, State::zeros(0, Phase::Stopped(0)));
    // The last unit in the tick before the deadline is no miss.
    table.m = 3;
    table.costs[0] = 1;
    let bytes = file(&table);
    let answer = tick(&bytes, &open(&bytes, 7).state, 0b111).answer;
    assert_eq!((answer.number, answer.finished), (0, 0b111));
}

#[test]
fn d18_thirty_one_before_thirty_three() {
    let mut state = open(&TABLE_A, 0).state;
    tick_in_place(&TABLE_A, &mut state, 1);
    for (set, number, task) in [
        (0b01, 33, 0),
        (0b11, 33, 0),
        (0b101, 31, 2),
        (0x8001, 31, 15),
        (0xFFFF, 31, 2),
        (0b10, 0, 255),
    ] {
        let answer = tick(&TABLE_A, &state, set).answer;
        assert_eq!((answer.number, answer.task), (number, task));
    }
}

#[test]
fn d19_ticks_left_from_one_to_d_less_one() {
    let live = |left: u32, wait: u32| {
        let mut state = State::zeros(u32::MAX - 1, Phase::Running);
        let mut rest = [0; ENTRIES];
        rest[0] = 1;
        state.put_job(0, 0, state.clock.wrapping_add(left), &rest);
        state.tasks[0].wait = wait;
        state
    };
    let one = row_of(&[(1, 5)]);
    for left in [0, 1, 2, u32::MAX] {
        assert!(!fits(&one, &live(left, 4u32.wrapping_add(left))));
    }
    // The wait is at least T - D plus the ticks left, and below T.
    let four = row_of(&[(4, 5)]);
    for left in 0..6 {
        let sound = (1..4).contains(&left);
        for wait in 0..7 {
            let within = (1 + left..5).contains(&wait);
            assert_eq!(fits(&four, &live(left, wait)), sound && within);
        }
    }
    assert!(!fits(&four, &live(u32::MAX, 0)));
}

#[test]
fn d56_a_fitting_state_need_not_be_reachable() {
    // Nine of ten ticks are gone and nothing has been done: never from idle
    // on two processors by this rule, yet it fits, and so does what follows.
    let a = table_a();
    let mut state = State::zeros(100, Phase::Running);
    state.put_job(0, 0, 101, a.costs_of(0));
    state.tasks[0].wait = 3;
    assert!(fits(&a, &state));
    let ticked = tick(&TABLE_A, &state, 0);
    assert_eq!((ticked.answer.number, ticked.answer.task), (34, 0));
    assert!(fits(&a, &ticked.state));
}

#[test]
fn d20_an_idle_task_has_no_deadline() {
    let state = open(&TABLE_A, 3).state;
    assert!(state.tasks.iter().all(|task| *task == TaskState::ZERO));
}

#[test]
fn d12_reports_of_any_input() {
    let mut long = TABLE_A.to_vec();
    long.resize(1_000_000, 0x54);
    assert_eq!(report(&long), b"unreadable 8 at 52\n");
    assert_eq!(report(&[0; 6_000]), b"unreadable 2 at 0\n");
}

#[test]
fn d5_widths() {
    let table = Table::ZERO;
    let _: (u8, u8, u8) = (table.m, table.n, table.tasks[0].v);
    let _: (u32, u32, u32) = (
        table.tasks[0].deadline,
        table.tasks[0].period,
        table.costs[0],
    );
    let _: u16 = table.tasks[0].succ[0];
    assert_eq!((table.tasks.len(), table.costs.len()), (16, 256));
}

#[test]
fn d22_accepted_tables_have_no_miss_and_no_chain_too_long() {
    let r = &mut Random::new(84);
    let mut seen = explore::KeySet::new();
    let mut explored = 0;
    while explored < 1_000 {
        let table = tiny_table(r, true);
        if verdict(&file(&table)).number == 0 {
            let found = explore::explore(&table, explore::STATED, &mut seen);
            assert_eq!((found.wrong, found.chains_too_long), (None, 0));
            explored += 1;
        }
    }
}

#[test]
fn d9_the_largest_margin() {
    let mut table = row_of(&[(MOST_TICKS, MOST_TICKS)]);
    table.m = 8;
    assert_eq!(figures(&table, 0).margin, 7_999_992);
    // Reached since M-103: one vertex of cost 0.
    table.costs[0] = 0;
    assert_eq!(figures(&table, 0).margin, 8_000_000);
    let answer = verdict(&file(&table));
    assert_eq!((answer.number, answer.margin), (0, 8_000_000));
}

#[test]
fn d10_twenty_names_the_lowest_not_the_smallest() {
    // Margins 2, -1 and -3 on one processor.
    let mut table = row_of(&[(9, 9), (6, 9), (4, 9)]);
    table.costs[0] = 5;
    let margins: Vec<_> = (0..3).map(|k| figures(&table, k).margin).collect();
    assert_eq!(margins, [2, -1, -3]);
    let answer = verdict(&file(&table));
    assert_eq!((answer.number, answer.task, answer.margin), (20, 1, -1));
    // Accepted: the smallest margin and the lowest task that has it.
    let table = row_of(&[(9, 9), (6, 9), (6, 9)]);
    let answer = verdict(&file(&table));
    assert_eq!((answer.number, answer.task, answer.margin), (0, 1, 3));
}

/// Table A runs with task 0 live and task 1 idle; or it is stopped.
fn running_and_stopped() -> [State; 2] {
    let running = tick(&TABLE_A, &open(&TABLE_A, 0).state, 1).state;
    [running, State::zeros(9, Phase::Stopped(1))]
}

#[test]
fn d53_a_stored_number_that_differs_is_thirty() {
    for (state, number) in running_and_stopped().into_iter().zip([0, 32]) {
        assert_eq!(tick(&TABLE_A, &state, 0).answer.number, number);
        // Task 0 is live or stopped, task 1 idle or stopped at, 2 and 15 unused;
        // from 16 on places without a job.
        for job in [0, 1, 2, 15, 16, 17, 48, 63] {
            for wrong in [1, 4, 6, 1 << 32, 5 + (1 << 32), u64::MAX] {
                let mut state = state;
                state.work[job] = state.work[job].wrapping_add(wrong);
                let ticked = tick(&TABLE_A, &state, 0);
                assert_eq!(ticked.answer.number, 30, "{job} {wrong}");
                assert_eq!(ticked.state, state);
            }
        }
    }
}

#[test]
fn d53_stored_work_over_a_run() {
    let [running, stopped] = running_and_stopped();
    let with = |work: u64| {
        let mut row = [0; 64];
        row[0] = work;
        row
    };
    assert_eq!((running.work, stopped.work), (with(5), with(0)));
    let mut state = running;
    for work in [4, 2, 1, 0, 0] {
        assert_eq!(tick_in_place(&TABLE_A, &mut state, 0).number, 0);
        assert_eq!(state.work, with(work));
    }
}
