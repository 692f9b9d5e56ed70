//! Document 02, M-103: fork and join marks cost nothing. Its sentences one by
//! one, with the readings D49 to D52 of docs/DECISIONS.md.

use second::examples::{plain_task, table_marks, TABLE_A};
use second::explore::{explore, runs_early, small_tables, How, KeySet, Wrong, STATED};
use second::judge::{judge, put_row};
use second::machine::*;
use second::random::*;
use second::table::ENTRIES;
use second::verdict::figures;
use second::*;

/// One task with these costs and edges on m processors.
fn lone(m: u8, deadline: u32, period: u32, costs: &[u32], edges: &[(usize, usize)]) -> Table {
    let mut table = Table {
        m,
        n: 1,
        ..Table::ZERO
    };
    plain_task(&mut table, 0, deadline, period, costs);
    for (from, to) in edges {
        table.tasks[0].succ[*from] |= 1 << to;
    }
    table
}

/// A fork, two branches of 1 and 3 ticks, a join, and 2 ticks after it.
fn fork_and_join(m: u8) -> Table {
    let edges = [(0, 1), (0, 2), (1, 3), (2, 3), (3, 4)];
    lone(m, 9, 9, &[0, 1, 3, 0, 2], &edges)
}

/// The vertices run in each tick until the job ends, and in which tick it did.
fn played(table: &Table) -> (Vec<Vec<u8>>, usize) {
    let bytes = file(table);
    let mut state = open(&bytes, 0).state;
    let mut lists = Vec::new();
    loop {
        let answer = tick_in_place(&bytes, &mut state, u16::from(lists.is_empty()));
        assert_eq!(answer.number, 0);
        assert!(fits(table, &state));
        let ran = answer.ran.iter().filter(|v| **v != NO_VERTEX);
        lists.push(ran.map(|(_, _, h)| *h).collect());
        if answer.finished == 1 {
            return (lists.clone(), lists.len() - 1);
        }
    }
}

/// "The new editor writes start and join vertices with cost 0. Allow it."
/// "Refusals: for a cost, 4 now means above 1,000,000; for D and T it stays as
/// it was."
#[test]
fn cost_zero_is_read_and_written() {
    let r = &mut Random::new(31);
    let mut seen = 0;
    for _ in 0..3_000 {
        let table = table(r);
        let bytes = file(&table);
        assert_eq!((read(&bytes).number, read(&bytes).table), (0, table));
        let used = (0..usize::from(table.n)).flat_map(|i| {
            let v = usize::from(table.tasks[i].v);
            table.costs_of(i)[..v].to_vec()
        });
        seen += used.filter(|cost| *cost == 0).count();
    }
    assert!(seen > 10_000, "{seen}");
    for (cost, number) in [(0, 0), (1, 0), (1_000_000, 0), (1_000_001, 4)] {
        let mut bytes = TABLE_A.to_vec();
        bytes[16..20].copy_from_slice(&u32::to_le_bytes(cost));
        let found = read(&bytes);
        assert_eq!(found.number, number);
        assert_eq!(found.place, if number == 4 { 16 } else { 0 });
    }
    for place in [8, 12] {
        let mut bytes = TABLE_A.to_vec();
        bytes[place..place + 4].fill(0);
        assert_eq!((read(&bytes).number, read(&bytes).place), (4, place));
    }
}

/// "A join with cost 0 would count as done while a branch before it still runs.
/// From now on a vertex is done when nothing of it remains and all its direct
/// predecessors are done; availability asks for done predecessors."
#[test]
fn a_join_waits_for_every_branch() {
    let (lists, last) = played(&fork_and_join(2));
    let long: [&[u8]; 5] = [&[1, 2], &[2], &[2], &[4], &[4]];
    assert_eq!((lists, last), (long.map(<[u8]>::to_vec).to_vec(), 4));
    let (lists, _) = played(&fork_and_join(1));
    assert_eq!(lists.concat(), [1, 2, 2, 2, 4, 4]);
    // By what remains alone the vertex behind the join would go at once.
    let table = fork_and_join(3);
    let released = release(&table, &State::zeros(0, Phase::Running), 1);
    let vertices = |ranked: Ranked| -> Vec<u8> {
        let all = ranked.all().iter();
        all.map(|entry| vertex_of(*entry).2).collect()
    };
    assert_eq!(vertices(rank(&table, &released)), [1, 2]);
    let weaker = rank_by(&table, &released, held_by_remaining);
    assert_eq!(vertices(weaker), [1, 2, 4]);
}

/// The set of those not done is closed by edges; told again by descent.
#[test]
fn done_told_twice() {
    fn done(task: &Task, rest: &[u32; ENTRIES], h: usize) -> bool {
        let before = (0..ENTRIES).filter(|p| task.succ[*p] >> h & 1 == 1);
        rest[h] == 0 && before.into_iter().all(|p| done(task, rest, p))
    }
    let r = &mut Random::new(32);
    let (mut held, mut apart) = (0, 0);
    for _ in 0..20_000 {
        let v = r.below(8) + 1;
        let mut table = table_sized(r, 1, v);
        let v = usize::from(table.tasks[0].v);
        for h in 0..v {
            table.costs[h] = r.pick(&[0, 0, 1, 5]);
        }
        let (task, rest) = (&table.tasks[0], table.costs_of(0));
        let open = not_done(task, rest);
        for h in 0..v {
            assert_eq!(open >> h & 1 == 0, done(task, rest, h));
            held += u32::from(open >> h & 1 == 1 && rest[h] == 0);
        }
        // "A job is finished when all its vertices are done": D52, all are done
        // just if nothing remains.
        assert_eq!(open == 0, rest.iter().all(|x| *x == 0));
        apart += u32::from(held_back(task, rest) != held_by_remaining(task, rest));
    }
    assert!(held > 5_000 && apart > 500, "{held} {apart}");
}

/// "So one whose costs are all 0 finishes in its release tick": D49.
#[test]
fn a_job_of_nothing_ends_in_its_release_tick() {
    for (deadline, period) in [(1, 1), (1, 4), (5, 7)] {
        let table = lone(2, deadline, period, &[0, 0, 0], &[(0, 1), (1, 2)]);
        let bytes = file(&table);
        let ticked = tick(&bytes, &open(&bytes, u32::MAX).state, 1);
        let answer = ticked.answer;
        assert_eq!((answer.number, answer.task), (0, 255));
        assert_eq!((answer.ran, answer.finished), ([NO_VERTEX; 8], 1));
        let wait = period - 1;
        assert_eq!(ticked.state.tasks[0], TaskState::idle(wait));
        assert_eq!(ticked.state.clock, 0);
        let early = tick(&bytes, &ticked.state, 1).answer;
        let again = if wait == 0 { (0, 255) } else { (33, 0) };
        assert_eq!((early.number, early.task), again);
    }
    // Beside another task's miss it is named all the same.
    let mut table = lone(1, 1, 1, &[0], &[]);
    table.n = 2;
    plain_task(&mut table, 1, 1, 1, &[2]);
    let bytes = file(&table);
    let answer = tick(&bytes, &open(&bytes, 0).state, 3).answer;
    assert_eq!((answer.number, answer.task, answer.finished), (34, 1, 1));
    assert_eq!(answer.ran[0], (1, 0, 0));
}

/// D49: "some remaining above 0" stays, so no live job of an all-zero task fits.
#[test]
fn a_live_job_of_nothing_never_fits() {
    let table = lone(1, 5, 5, &[0, 0], &[(0, 1)]);
    for left in 0..7 {
        let mut state = State::zeros(10, Phase::Running);
        state.put_job(0, 0, 10 + left, &[0; ENTRIES]);
        state.tasks[0].wait = left;
        assert!(!fits(&table, &state));
        assert_eq!(tick(&file(&table), &state, 0).answer.number, 30);
    }
}

/// D50: a start of cost 0 is done at release; what follows a run of zeros after
/// one that ends in a tick runs in the next.
#[test]
fn zeros_take_no_tick_and_save_none() {
    let line = |costs: &[u32]| {
        let edges: Vec<_> = (1..costs.len()).map(|h| (h - 1, h)).collect();
        played(&lone(8, 20, 20, costs, &edges))
    };
    assert_eq!(line(&[0, 0, 2]), (vec![vec![2], vec![2]], 1));
    assert_eq!(line(&[1, 0, 0, 1]), (vec![vec![0], vec![3]], 1));
    assert_eq!(line(&[1, 0, 0]), (vec![vec![0]], 0));
    assert_eq!(line(&[0, 1, 0, 1, 0]), (vec![vec![1], vec![3]], 1));
}

/// "In the state rule, a vertex with a predecessor not done still has its whole
/// cost": D50, for one of cost 0 that is nothing, and it is not done.
#[test]
fn the_state_rule() {
    let table = fork_and_join(2);
    let with = |rest: [u32; 5]| {
        let mut state = State::zeros(0, Phase::Running);
        let mut row = [0; ENTRIES];
        row[..5].copy_from_slice(&rest);
        state.put_job(0, 0, 4, &row);
        state.tasks[0].wait = 4;
        fits(&table, &state)
    };
    assert!(with([0, 1, 3, 0, 2]) && with([0, 0, 1, 0, 2]) && with([0, 1, 0, 0, 2]));
    // The last vertex begun while a branch before the join runs.
    assert!(!with([0, 0, 1, 0, 1]) && !with([0, 1, 3, 0, 0]) && !with([0, 1, 0, 0, 1]));
    assert!(with([0, 0, 0, 0, 2]) && with([0, 0, 0, 0, 1]));
    assert!(!with([0, 0, 0, 0, 0]) && !with([0, 0, 0, 1, 2]) && !with([1, 1, 3, 0, 2]));
}

/// "Demands 2 and 3 read these rules, in the journal as well."
#[test]
fn the_journal_reads_these_rules() {
    let bytes = file(&fork_and_join(2));
    let ruled = |rows: &[&[u8]]| {
        let mut journal = Vec::new();
        for (at, row) in rows.iter().enumerate() {
            let ran: Vec<Vertex> = row.iter().map(|h| (0, 0, *h)).collect();
            put_row(&mut journal, u16::from(at == 0), &ran);
        }
        let ruling = judge(&bytes, &journal);
        (ruling.number, ruling.row, ruling.rows)
    };
    assert_eq!(ruled(&[&[1, 2], &[2], &[2], &[4], &[4], &[]]), (0, 0, 6));
    // A mark never runs; the vertex behind the join waits for both branches.
    assert_eq!(ruled(&[&[0, 1]]), (44, 0, 0));
    assert_eq!(ruled(&[&[1, 4]]), (44, 0, 0));
    assert_eq!(ruled(&[&[1, 2], &[2, 4]]), (44, 1, 0));
    assert_eq!(ruled(&[&[1, 2], &[2], &[2], &[3]]), (44, 3, 0));
    // What follows the start mark is available in the release tick.
    assert_eq!(ruled(&[&[1]]), (45, 0, 0));
    assert_eq!(ruled(&[&[]]), (45, 0, 0));
}

/// The verdict of tables with marks: they add nothing to vol and len.
#[test]
fn marks_add_nothing_to_the_figures() {
    let table = fork_and_join(2);
    let f = figures(&table, 0);
    assert_eq!((f.vol, f.len, f.due, f.margin), (6, 5, 6, 18 - 5 - 6));
    let nothing = lone(8, 1_000_000, 1_000_000, &[0; 16], &[(0, 1), (1, 2)]);
    let f = figures(&nothing, 0);
    assert_eq!((f.vol, f.len, f.due, f.margin), (0, 0, 0, 8_000_000));
    assert_eq!(verdict(&file(&nothing)).number, 0);
    assert!(quick(&file(&nothing)));
    // The example table of marks: a task of marks alone is named.
    let marks = table_marks();
    let all = [0, 1, 2].map(|k| figures(&marks, k));
    let rows = all.map(|f| [f.vol, f.len, f.due, f.margin]);
    assert_eq!(rows, [[17, 8, 23, 9], [3, 2, 20, 2], [0, 0, 20, 0]]);
    let answer = verdict(&file(&marks));
    assert_eq!((answer.number, answer.task, answer.margin), (0, 2, 0));
}

/// Random fitting states in which a join of cost 0 waits behind a branch.
#[test]
fn such_states_come_up() {
    let r = &mut Random::new(33);
    let (mut waiting, mut nothing) = (0, 0);
    for _ in 0..20_000 {
        let table = busy_table(r);
        let state = fitting(r, &table);
        assert!(fits(&table, &state));
        for i in 0..usize::from(table.n) {
            for (age, _) in state.tasks[i].jobs() {
                let (task, rest) = (&table.tasks[i], state.rest(i, age));
                waiting += u32::from(held_back(task, rest) != held_by_remaining(task, rest));
            }
            nothing += u32::from(table.costs_of(i).iter().all(|cost| *cost == 0));
        }
    }
    assert!(waiting > 1_000 && nothing > 1_000, "{waiting} {nothing}");
}

/// By what remains alone, a vertex runs before one that leads to it, and the
/// next state doesn't fit. No miss comes of it in an accepted table: it is the
/// rule of a graph with fewer edges, whose margins are no smaller.
#[test]
fn availability_by_what_remains_runs_too_early() {
    let mut seen = KeySet::new();
    let how = How {
        held: held_by_remaining,
        ..STATED
    };
    let (mut early, mut table_at) = (None, None);
    small_tables(2, |table| {
        let found = explore(table, how, &mut seen);
        if let (Some((Wrong::Early(task), run)), true) =
            (&found.wrong, verdict(&file(table)).number == 0)
        {
            (early, table_at) = (Some((*task, run.clone())), Some(*table));
        }
        early.is_none()
    });
    let ((task, run), table) = (early.expect("one"), table_at.unwrap());
    let mut state = State::zeros(5, Phase::Running);
    for (at, step) in run.iter().enumerate() {
        let released = release(&table, &state, step.releases);
        let last = at + 1 == run.len();
        let told = runs_early(&table, &released, &step.ran);
        assert_eq!(told, if last { Some(task) } else { None });
        state = go_on(&table, &released, step.releases, &step.ran).state;
        assert_eq!(fits(&table, &state), !last);
    }
}
