//! The judge of journals: what it accepts, and every refusal in its order.

use second::examples::TABLE_A;
use second::judge::{judge, judge_table, put_row, Ruling};
use second::legal::is_legal;
use second::machine::*;
use second::random::*;
use second::*;

fn legal(rows: usize, missed: bool) -> Ruling {
    Ruling {
        rows,
        missed,
        ..Ruling::default()
    }
}

fn refused(number: u8, row: usize) -> Ruling {
    Ruling {
        number,
        row,
        ..Ruling::default()
    }
}

/// Table A's rows of example P9, and on to tick 3.
fn rows_of_a() -> Vec<Vec<u8>> {
    let ran: [(u16, &[Vertex]); 4] = [
        (3, &[(1, 0, 0), (1, 0, 1)]),
        (0, &[(1, 0, 0), (1, 0, 1)]),
        (0, &[(0, 0, 0)]),
        (0, &[(0, 0, 0)]),
    ];
    let rows = ran.iter().map(|(set, ran)| {
        let mut row = Vec::new();
        put_row(&mut row, *set, ran);
        row
    });
    rows.collect()
}

#[test]
fn table_a_is_legal_and_each_damage_has_its_number() {
    let rows = rows_of_a();
    let with = |at: usize, row: &[u8]| {
        let mut rows = rows.clone();
        rows[at] = row.to_vec();
        judge(&TABLE_A, &rows.concat())
    };
    assert_eq!(judge(&TABLE_A, &rows.concat()), legal(4, false));
    assert_eq!(judge(&TABLE_A, b""), legal(0, false));
    assert_eq!(
        judge(&TABLE_A[..51], b"J"),
        Ruling {
            number: 1,
            place: 48,
            ..Ruling::default()
        }
    );
    // Wrong marks and counts above m are 40 where the row is cut short.
    assert_eq!(judge(&TABLE_A, b"XR"), refused(40, 0));
    assert_eq!(judge(&TABLE_A, b"XR\0\0\xC8"), refused(40, 0));
    assert_eq!(judge(&TABLE_A, b"JR\0\0\x02\0\0\0\x01\0"), refused(40, 0));
    assert_eq!(with(1, b"JX\0\0\x02\x01\0\0\x01\0\x01"), refused(41, 1));
    assert_eq!(
        with(1, b"JR\0\0\x03\0\0\0\x01\0\0\x01\0\x01"),
        refused(42, 1)
    );
    assert_eq!(with(1, b"JR\0\0\x02\x01\0\x01\x01\0\0"), refused(42, 1));
    assert_eq!(with(1, b"JR\0\0\x02\x01\x01\0\x01\0\x01"), refused(42, 1));
    assert_eq!(with(1, b"JR\0\0\x02\x01\0\0\x01\0\0"), refused(42, 1));
    // 31 before 33, and both before the choice.
    assert_eq!(with(1, b"JR\x05\0\x02\x01\0\0\x01\0\x01"), refused(31, 1));
    assert_eq!(with(1, b"JR\x01\0\x00"), refused(33, 1));
    // Not there, not live, a predecessor unfinished, nothing remaining.
    assert_eq!(with(1, b"JR\0\0\x02\x01\0\0\x01\0\x02"), refused(44, 1));
    assert_eq!(with(1, b"JR\0\0\x02\x01\0\0\x11\0\x00"), refused(44, 1));
    assert_eq!(with(0, b"JR\x01\0\x01\x01\0\0"), refused(44, 0));
    assert_eq!(with(0, b"JR\x03\0\x02\0\0\x01\x01\0\0"), refused(44, 0));
    assert_eq!(with(2, b"JR\0\0\x01\x01\0\0"), refused(44, 2));
    assert_eq!(with(1, b"JR\0\0\x01\x01\0\0"), refused(45, 1));
    assert_eq!(with(0, b"JR\x03\0\x02\0\0\0\x01\0\0"), refused(46, 0));
}

#[test]
fn an_age_place_without_a_job() {
    let mut rows = rows_of_a();
    for age in [1, 3, 4, 255] {
        rows[1] = vec![b'J', b'R', 0, 0, 2, 1, 0, 0, 1, age, 1];
        assert_eq!(judge(&TABLE_A, &rows.concat()), refused(44, 1));
    }
}

#[test]
fn nothing_follows_a_miss() {
    let mut table = read(&TABLE_A).table;
    table.n = 1;
    table.tasks[1] = Task::ZERO;
    table.costs[16..].fill(0);
    table.tasks[0].deadline = 1;
    let row = b"JR\x01\0\x01\0\0\0";
    assert_eq!(judge_table(&table, row), legal(1, true));
    for stray in [&b"J"[..], b"JR\0\0\0", b"XR"] {
        let both = [&row[..], stray].concat();
        assert_eq!(judge_table(&table, &both), refused(47, 1));
    }
}

#[test]
fn legal_runs_are_accepted_and_cuts_are_not() {
    let r = &mut Random::new(7);
    for _ in 0..2_000 {
        let table = busy_table(r);
        let rows = legal_rows(r, &table, 40);
        let bytes = rows.concat();
        let found = judge_table(&table, &bytes);
        assert_eq!(found, legal(rows.len(), found.missed));
        let cut = r.below(bytes.len());
        let mut whole = 0;
        let mut upto = 0;
        while upto + rows[whole].len() <= cut {
            upto += rows[whole].len();
            whole += 1;
        }
        let expected = if upto == cut {
            legal(whole, false)
        } else {
            refused(40, whole)
        };
        assert_eq!(judge_table(&table, &bytes[..cut]), expected);
    }
}

/// A state before any miss, and the rows that lead to it.
fn led_to(r: &mut Random, table: &Table, rows: usize) -> (State, Vec<u8>) {
    let mut journal = Vec::new();
    let mut state = State::zeros(0, Phase::Running);
    for _ in 0..r.below(rows) {
        let set = releases(r, table, &state);
        let before = release(table, &state, set);
        let ran = choice(r, table, &before, true);
        let moved = go_on(table, &before, set, &ran);
        if moved.missed.is_some() {
            break;
        }
        put_row(&mut journal, set, &ran);
        state = moved.state;
    }
    (state, journal)
}

#[test]
fn a_row_is_accepted_exactly_if_its_choice_is_legal() {
    let r = &mut Random::new(8);
    let (mut yes, mut no) = (0, 0);
    for _ in 0..20_000 {
        let table = busy_table(r);
        let (state, mut journal) = led_to(r, &table, 12);
        let set = releases(r, &table, &state);
        let before = release(&table, &state, set);
        let mut ran: Vec<Vertex> = choice(r, &table, &before, true);
        if r.one_in(4) {
            ran = choice(r, &table, &before, false);
        }
        if r.coin() {
            ran.retain(|_| !r.one_in(4));
            ran.push((
                r.below(usize::from(table.n)) as u8,
                r.below_either(1, 4) as u8,
                r.below(6) as u8,
            ));
        }
        ran.sort_unstable();
        ran.dedup();
        put_row(&mut journal, set, &ran);
        let accepted = judge_table(&table, &journal).number == 0;
        assert_eq!(accepted, is_legal(&table, &before, &ran));
        yes += u32::from(accepted);
        no += u32::from(!accepted);
    }
    assert!(yes > 5_000 && no > 5_000, "{yes} {no}");
}

#[test]
fn damage_meets_every_number() {
    let r = &mut Random::new(9);
    let mut met = [0u32; 64];
    for _ in 0..40_000 {
        let table = busy_table(r);
        let bytes = journal(r, &table, 30);
        met[usize::from(judge_table(&table, &bytes).number)] += 1;
    }
    for number in [0, 31, 33, 40, 41, 42, 44, 45, 46, 47] {
        assert!(met[number] > 100, "{number}: {}", met[number]);
    }
}

#[test]
fn the_machines_own_runs_are_accepted_from_any_clock() {
    let r = &mut Random::new(10);
    for _ in 0..1_000 {
        let table = busy_table(r);
        let mut state = State::zeros(r.number(), Phase::Running);
        let (mut bytes, mut rows) = (Vec::new(), 0);
        while rows < 40 && state.phase == Phase::Running {
            let set = releases(r, &table, &state);
            let next = tick_table(&table, &state, set);
            let ran = next.answer.ran.iter().copied().filter(|v| *v != NO_VERTEX);
            put_row(&mut bytes, set, &ran.collect::<Vec<_>>());
            state = next.state;
            rows += 1;
        }
        let missed = state.phase != Phase::Running;
        assert_eq!(judge_table(&table, &bytes), legal(rows, missed));
    }
}
