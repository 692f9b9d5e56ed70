//! The machine: runs, refusals, what fits, conservation.

use second::examples::TABLE_A;
use second::legal::{each_choice, is_legal};
use second::machine::*;
use second::random::*;
use second::table::{AGES, ENTRIES};
use second::*;

/// Tables on which jobs live for some ticks and end or miss.
fn lively(r: &mut Random) -> Table {
    match r.below(3) {
        0 => tiny_table(r, false),
        1 => tiny_table(r, true),
        _ => {
            let n = r.below(5) + 1;
            near_edge(r, n, 5, 30)
        }
    }
}

/// "A vertex is done when nothing of it remains and all its direct predecessors
/// are done" (document 02, M-103), by descent.
fn is_done(task: &Task, rest: &[u32; ENTRIES], h: usize) -> bool {
    let edge = |p: usize| task.succ[p] >> h & 1 == 1;
    rest[h] == 0 && (0..ENTRIES).all(|p| !edge(p) || is_done(task, rest, p))
}

fn is_held(task: &Task, rest: &[u32; ENTRIES], h: usize) -> bool {
    let edge = |p: usize| task.succ[p] >> h & 1 == 1;
    (0..ENTRIES).any(|p| edge(p) && !is_done(task, rest, p))
}

/// Ticks left of the job at an age place, if there is one, in wide numbers.
fn left_plainly(state: &State, i: usize, age: usize) -> Option<i64> {
    let wide = |deadline: u32| i64::from(deadline) - i64::from(state.clock);
    state.tasks[i].deadlines[age].map(|deadline| wide(deadline).rem_euclid(1 << 32))
}

/// The rule of one live job.
fn job_fits_plainly(table: &Table, state: &State, i: usize, age: usize) -> bool {
    let (task, rest) = (&table.tasks[i], state.rest(i, age));
    let left = left_plainly(state, i, age).unwrap();
    let whole = |h: usize| !is_held(task, rest, h) || rest[h] == table.costs[16 * i + h];
    let unused = (usize::from(task.v)..ENTRIES).all(|h| rest[h] == 0);
    (1..=i64::from(task.deadline) - 1).contains(&left)
        && (0..ENTRIES).all(|h| rest[h] <= table.costs[16 * i + h])
        && rest.iter().any(|r| *r > 0)
        && (0..ENTRIES).all(whole)
        && unused
}

/// "Jobs are kept oldest first, each next deadline at least T ticks after the
/// one before, the wait is below T and, while any is live, at least T minus D
/// plus the newest one's ticks left" (document 02, M-109).
fn task_fits_plainly(table: &Table, state: &State, i: usize) -> bool {
    let (d, t) = (
        i64::from(table.tasks[i].deadline),
        i64::from(table.tasks[i].period),
    );
    let wait = i64::from(state.tasks[i].wait);
    if i >= usize::from(table.n) {
        return state.tasks[i].deadlines == [None; AGES] && wait == 0;
    }
    let mut good = wait < t;
    for age in 0..AGES {
        let Some(left) = left_plainly(state, i, age) else {
            continue;
        };
        good &= job_fits_plainly(table, state, i, age);
        // No gap before it, and none too near; so the last one is the newest.
        if age > 0 {
            let before = left_plainly(state, i, age - 1);
            good &= before.is_some_and(|before| left >= before + t);
        }
        good &= wait >= t - d + left;
    }
    good
}

/// The state rule, told sentence by sentence in wide signed numbers.
fn fits_plainly(table: &Table, state: &State) -> bool {
    let n = usize::from(table.n);
    for i in 0..ENTRIES {
        for age in 0..AGES {
            let rest = state.rest(i, age);
            let live = state.tasks[i].deadlines[age].is_some();
            let sum: i128 = rest.iter().map(|r| i128::from(*r)).sum();
            let stored = i128::from(state.work[16 * age + i]);
            if stored != sum || !live && rest.iter().any(|r| *r != 0) {
                return false;
            }
        }
    }
    if let Phase::Stopped(task) = state.phase {
        let nothing = |kept: &TaskState| kept.wait == 0 && kept.deadlines == [None; AGES];
        return usize::from(task) < n && state.tasks.iter().all(nothing);
    }
    (0..ENTRIES).all(|i| task_fits_plainly(table, state, i))
}

#[test]
fn fitting_told_twice() {
    let r = &mut Random::new(41);
    let (mut yes, mut no) = (0, 0);
    for _ in 0..60_000 {
        let table = lively(r);
        let base = match r.below(3) {
            0 => reached(r, &table, 20),
            _ => fitting(r, &table),
        };
        assert!(fits(&table, &base) && fits_plainly(&table, &base));
        let changes = r.below(3) + 1;
        let state = damaged_state(r, &base, changes);
        let said = fits(&table, &state);
        assert_eq!(said, fits_plainly(&table, &state), "{table:?} {state:?}");
        yes += u32::from(said);
        no += u32::from(!said);
        // The same state with another table.
        let other = lively(r);
        assert_eq!(fits(&other, &base), fits_plainly(&other, &base));
    }
    assert!(yes > 5_000 && no > 20_000, "{yes} {no}");
}

/// Steps 2 and 3 by definition: what runs after the releases, in rank order.
fn runs_plainly(table: &Table, released: &State) -> Vec<Vertex> {
    let mut available = Vec::new();
    for i in 0..ENTRIES {
        for age in 0..AGES {
            let Some(left) = left_plainly(released, i, age) else {
                continue;
            };
            let rest = released.rest(i, age);
            for h in 0..ENTRIES {
                if rest[h] > 0 && !is_held(&table.tasks[i], rest, h) {
                    available.push((left, (i as u8, age as u8, h as u8)));
                }
            }
        }
    }
    available.sort();
    available.truncate(usize::from(table.m));
    available.iter().map(|(_, vertex)| *vertex).collect()
}

#[test]
fn a_tick_keeps_fitting() {
    let r = &mut Random::new(42);
    let (mut missed, mut went_on) = (0, 0);
    for _ in 0..60_000 {
        let table = lively(r);
        let state = fitting(r, &table);
        if state.phase != Phase::Running {
            continue;
        }
        let set = releases(r, &table, &state);
        let ticked = tick(&file(&table), &state, set);
        let answer = ticked.answer;
        assert!(fits(&table, &ticked.state));
        assert_eq!(ticked.state.clock, state.clock.wrapping_add(1));
        assert_eq!(answer.place, 0);
        if answer.number == 34 {
            missed += 1;
            let zeros = State::zeros(ticked.state.clock, Phase::Stopped(answer.task));
            assert_eq!(ticked.state, zeros);
        } else {
            went_on += 1;
            assert_eq!((answer.number, answer.task), (0, 255));
        }
        let ran: Vec<_> = answer
            .ran
            .into_iter()
            .take_while(|v| *v != NO_VERTEX)
            .collect();
        assert!(answer.ran[ran.len()..].iter().all(|v| *v == NO_VERTEX));
        let released = release(&table, &state, set);
        assert!(is_legal(&table, &released, &ran));
        assert_eq!(ran, runs_plainly(&table, &released));
        let waits = ticked.state.tasks.iter().map(|task| task.wait);
        for (i, wait) in waits.enumerate().filter(|_| answer.number == 0) {
            let before = state.tasks[i].wait;
            let named = set >> i & 1 == 1;
            let period = table.tasks[i].period;
            let after = if named { period - 1 } else { before.max(1) - 1 };
            assert_eq!(wait, after);
        }
    }
    assert!(missed > 1_000 && went_on > 20_000, "{missed} {went_on}");
}

/// The ticks run of each live job, by task and age place.
type RunTicks = [Vec<u64>; ENTRIES];

/// "For each live job: the number of times its vertices stood in the run lists
/// since its release, plus what remains, equals its vol"; its age place falls as
/// older ones end.
fn conserved(table: &Table, set: u16, ticked: &Ticked, ran: &mut RunTicks) {
    let listed = ticked.answer.ran.iter().filter(|v| **v != NO_VERTEX);
    for (i, jobs) in ran.iter_mut().enumerate() {
        if set >> i & 1 == 1 {
            jobs.push(0);
        }
        for (_, age, _) in listed.clone().filter(|v| usize::from(v.0) == i) {
            jobs[usize::from(*age)] += 1;
        }
        let vol: u64 = table.costs_of(i).iter().map(|c| u64::from(*c)).sum();
        let before = jobs.len();
        jobs.retain(|count| *count < vol);
        let finished = ticked.answer.finished >> i & 1 == 1;
        assert_eq!(finished, jobs.len() < before);
        if ticked.answer.number == 34 {
            continue;
        }
        assert_eq!(ticked.state.tasks[i].jobs().count(), jobs.len());
        for (age, count) in jobs.iter().enumerate() {
            let rest: u64 = ticked
                .state
                .rest(i, age)
                .iter()
                .map(|x| u64::from(*x))
                .sum();
            assert_eq!((ticked.state.work[16 * age + i], count + rest), (rest, vol));
        }
    }
}

#[test]
fn conservation_on_random_runs() {
    let r = &mut Random::new(43);
    let (mut ends, mut most) = ([0u32; 2], 0);
    for _ in 0..3_000 {
        let table = lively(r);
        let bytes = file(&table);
        let clock = if r.coin() { u32::MAX - 9 } else { r.number() };
        let mut state = open(&bytes, clock).state;
        let mut kept = state;
        let mut ran = RunTicks::default();
        for _ in 0..60 {
            let set = releases(r, &table, &state);
            let ticked = tick(&bytes, &state, set);
            assert_eq!(tick_in_place(&bytes, &mut kept, set), ticked.answer);
            assert_eq!(kept, ticked.state);
            conserved(&table, set, &ticked, &mut ran);
            most = most.max(ran.iter().map(Vec::len).max().unwrap());
            state = ticked.state;
            ends[usize::from(ticked.answer.number == 34)] += 1;
            if ticked.answer.number != 0 {
                break;
            }
        }
    }
    assert!(ends[0] > 50_000 && ends[1] > 300, "{ends:?}");
    assert!(most > 2, "{most}");
}

#[test]
fn a_refused_tick_changes_nothing() {
    let r = &mut Random::new(44);
    let mut counts = [0u32; 35];
    for _ in 0..60_000 {
        let table = lively(r);
        let mut bytes = file(&table);
        if r.one_in(5) {
            damage(r, &mut bytes);
        }
        let base = fitting(r, &table);
        let changes = r.below(3).saturating_sub(1);
        let state = damaged_state(r, &base, changes);
        let set = match r.below(3) {
            0 => r.word() as u16,
            1 => r.word() as u16 & 7,
            _ => releases(r, &table, &state),
        };
        let ticked = tick(&bytes, &state, set);
        let answer = ticked.answer;
        counts[usize::from(answer.number)] += 1;
        let mut kept = state;
        assert_eq!(tick_in_place(&bytes, &mut kept, set), answer);
        assert_eq!(kept, ticked.state);
        let found = read(&bytes);
        let named = |bad: &dyn Fn(usize) -> bool| {
            let low = (0..ENTRIES).find(|i| set >> i & 1 == 1 && bad(*i));
            low.map(|i| i as u8)
        };
        let n = usize::from(found.table.n);
        let past = named(&|i| i >= n);
        let early = named(&|i| state.tasks[i].wait > 0);
        let (number, place, task) = if found.number != 0 {
            (found.number, found.place, 255)
        } else if !fits_plainly(&found.table, &state) {
            (30, 0, 255)
        } else if state.phase != Phase::Running {
            (32, 0, 255)
        } else if let Some(task) = past {
            (31, 0, task)
        } else if let Some(task) = early {
            (33, 0, task)
        } else {
            assert!(answer.number == 0 || answer.number == 34);
            continue;
        };
        assert_eq!(
            (answer.number, answer.place, answer.task),
            (number, place, task)
        );
        assert_eq!((answer.ran, answer.finished), ([NO_VERTEX; 8], 0));
        assert_eq!(ticked.state, state);
    }
    for number in [0, 1, 2, 3, 4, 6, 8, 30, 31, 32, 33, 34] {
        assert!(counts[number] > 20, "{number}: {counts:?}");
    }
}

/// Every set of these places that is legal, told by the definition alone.
fn legal_sets(table: &Table, released: &State, places: &[Vertex]) -> Vec<Vec<Vertex>> {
    let sets = (0..1u32 << places.len()).map(|bits| {
        let chosen = (0..places.len()).filter(|at| bits >> at & 1 == 1);
        chosen.map(|at| places[at]).collect()
    });
    let mut legal: Vec<_> = sets
        .filter(|set: &Vec<Vertex>| is_legal(table, released, set))
        .collect();
    legal.sort();
    legal
}

#[test]
fn legal_choices_are_all_sets_that_the_rule_allows() {
    let r = &mut Random::new(45);
    let mut looked = 0;
    for _ in 0..3_000 {
        let table = tiny_table(r, true);
        let state = reached(r, &table, 12);
        let set = releases(r, &table, &state);
        let released = release(&table, &state, set);
        // What may run, and a few others.
        let available = rank(&table, &released);
        let mut places: Vec<_> = available.all().iter().copied().map(vertex_of).collect();
        places.extend([(0, 0, 0), (0, 1, 0), (1, 0, 1), (2, 3, 2)]);
        places.sort();
        places.dedup();
        if places.len() > 13 {
            continue;
        }
        looked += 1;
        let mut sets = Vec::new();
        each_choice(&table, &released, |choice| {
            let mut set = choice.to_vec();
            set.sort();
            sets.push(set);
            true
        });
        sets.sort();
        assert_eq!(sets, legal_sets(&table, &released, &places));
    }
    assert!(looked > 2_500, "{looked}");
}

#[test]
fn a_chain_of_ticks_by_hand() {
    // A alone with both released: task 1 ends in tick 1, task 0 in tick 6.
    let mut state = open(&TABLE_A, 0).state;
    let mut lists = Vec::new();
    let mut ends = Vec::new();
    for at in 0..8 {
        let answer = tick_in_place(&TABLE_A, &mut state, if at == 0 { 3 } else { 0 });
        assert_eq!(answer.number, 0);
        lists.push(answer.ran.iter().filter(|v| **v != NO_VERTEX).count());
        ends.push(answer.finished);
    }
    assert_eq!(lists, [2, 2, 1, 1, 2, 1, 1, 0]);
    assert_eq!(ends, [0, 2, 0, 0, 0, 0, 1, 0]);
    assert_eq!(state.tasks[0], TaskState::idle(4));
    assert_eq!(state.tasks[1], TaskState::idle(0));
}
