//! The verdict against figures told plainly from their definition.

use second::random::*;
use second::table::{least_period, ENTRIES, MOST_TICKS, ROW};
use second::verdict::{figures, judge, Figures};
use second::*;

/// The largest sum along a chain that begins at a vertex, by descent.
fn chain_from(table: &Table, k: usize, h: usize) -> i128 {
    let next = (0..ENTRIES).filter(|j| table.tasks[k].succ[h] >> j & 1 == 1);
    let rest = next.map(|j| chain_from(table, k, j)).max().unwrap_or(0);
    i128::from(table.costs[ENTRIES * k + h]) + rest
}

fn plain(table: &Table, k: usize) -> [i128; 4] {
    let task = &table.tasks[k];
    let vol = |i: usize| -> i128 { table.costs_of(i).iter().map(|c| i128::from(*c)).sum() };
    let chains = (0..usize::from(task.v)).map(|h| chain_from(table, k, h));
    let len = chains.max().unwrap();
    let mut due = 0;
    for i in 0..usize::from(table.n) {
        let (d, t) = (i128::from(task.deadline), i128::from(table.tasks[i].period));
        due += (d / t + i128::from(d % t != 0)) * vol(i);
    }
    let m = i128::from(table.m);
    let margin = m * i128::from(task.deadline) - (m - 1) * len - due;
    [vol(k), len, due, margin]
}

fn agree(table: &Table) -> Verdict {
    let n = usize::from(table.n);
    let rows: Vec<_> = (0..n).map(|k| plain(table, k)).collect();
    for (k, row) in rows.iter().enumerate() {
        let f = figures(table, k);
        assert_eq!([f.vol, f.len, f.due, f.margin].map(i128::from), *row);
        assert!(row[3] < 0 || row[1] <= i128::from(table.tasks[k].deadline));
    }
    let answer = verdict(&file(table));
    assert_eq!(answer, judge(table));
    let lowest = rows.iter().position(|row| row[3] < 0);
    let least = rows.iter().map(|row| row[3]).min().unwrap();
    let (number, k) = match lowest {
        Some(k) => (20, k),
        None => (0, rows.iter().position(|row| row[3] == least).unwrap()),
    };
    assert_eq!((answer.number, answer.place), (number, 0));
    assert_eq!(usize::from(answer.task), k);
    assert_eq!(i128::from(answer.margin), rows[k][3]);
    answer
}

#[test]
fn figures_and_answers() {
    let r = &mut Random::new(31);
    for _ in 0..3_000 {
        let n = r.below(16) + 1;
        let most = r.below(8) + 1;
        agree(&table_sized(r, n, most));
    }
    for _ in 0..20 {
        agree(&largest_table(r));
    }
    for _ in 0..3_000 {
        agree(&tiny_table(r, true));
    }
}

#[test]
fn tables_near_the_edge() {
    let r = &mut Random::new(32);
    let (mut accepted, mut zero, mut near) = (0, 0, 0);
    for _ in 0..2_000 {
        let n = r.below(6) + 1;
        let scale = r.pick(&[20, 100, 5_000, MOST_TICKS]);
        let answer = agree(&near_edge(r, n, 6, scale));
        accepted += u32::from(answer.number == 0);
        zero += u32::from(answer.margin == 0);
        near += u32::from((-20..=20).contains(&answer.margin));
    }
    assert!((700..=1_300).contains(&accepted), "{accepted}");
    assert!(zero > 200 && near > 1_500, "{zero} {near}");
}

/// One task of two vertices, joined or not, and one task beside it.
fn pair(m: u8, first: [u32; 4], joined: bool, other: [u32; 2]) -> Table {
    let mut table = Table {
        m,
        n: 2,
        ..Table::ZERO
    };
    let [deadline, period, a, b] = first;
    table.tasks[0].v = 2;
    table.tasks[0].deadline = deadline;
    table.tasks[0].period = period;
    table.tasks[0].succ[0] = if joined { 2 } else { 0 };
    table.costs[0] = a;
    table.costs[1] = b;
    let [time, cost] = other;
    table.tasks[1].v = 1;
    table.tasks[1].deadline = time;
    table.tasks[1].period = time;
    table.costs[ENTRIES] = cost;
    table
}

/// Document 01's number 21 asked for this; M-106 took it out because it is nowhere.
fn long_but_not_negative(table: &Table) -> bool {
    let rows = (0..usize::from(table.n)).map(|k| (k, figures(table, k)));
    let rows: Vec<_> = rows.collect();
    let longer = |k: usize, f: &Figures| f.len > i64::from(table.tasks[k].deadline);
    rows.iter().all(|(_, f)| f.margin >= 0) && rows.iter().any(|(k, f)| longer(*k, f))
}

#[test]
fn no_table_is_too_long_without_a_negative_margin() {
    let (mut tried, mut longer) = (0, 0);
    for code in 0..8 * 5 * 4 * 5 * 5 * 2 * 4 * 4 {
        let mut rest = code;
        let mut digit = |base: u32| {
            let low = rest % base;
            rest /= base;
            low
        };
        let m = digit(8) as u8 + 1;
        let deadline = digit(5) + 1;
        // T as short as may be, or D less one, or D, or longer.
        let period = match digit(4) {
            0 => least_period(deadline),
            more => (deadline + more - 2).max(1),
        };
        let first = [deadline, period, digit(5) + 1, digit(5) + 1];
        let joined = digit(2) == 1;
        let table = pair(m, first, joined, [4 * digit(4) + 1, digit(4) + 1]);
        assert!(!long_but_not_negative(&table), "{table:?}");
        tried += 1;
        longer += u32::from(figures(&table, 0).len > i64::from(deadline));
    }
    assert!(tried == 128_000 && longer > 20_000, "{tried} {longer}");
    let r = &mut Random::new(34);
    for _ in 0..3_000 {
        let n = r.below(6) + 1;
        let scale = r.pick(&[2, 20, 5_000, MOST_TICKS]);
        let table = near_edge(r, n, 6, scale);
        assert!(!long_but_not_negative(&table), "{table:?}");
    }
}

#[test]
fn both_ends_of_the_margin() {
    let mut table = Table {
        m: 8,
        n: 16,
        costs: [MOST_TICKS; ROW],
        ..Table::ZERO
    };
    for (i, task) in table.tasks.iter_mut().enumerate() {
        task.v = 16;
        task.deadline = if i == 0 { MOST_TICKS } else { 1 };
        task.period = least_period(task.deadline);
        task.succ = std::array::from_fn(|h| (0xFFFEu32 << h) as u16);
    }
    let answer = agree_margin(&table);
    assert_eq!(answer, (20, 0, -240_000_168_000_000));
    let mut table = Table {
        m: 8,
        n: 1,
        ..Table::ZERO
    };
    table.tasks[0].v = 1;
    table.tasks[0].deadline = MOST_TICKS;
    table.tasks[0].period = MOST_TICKS;
    table.costs[0] = 1;
    assert_eq!(agree_margin(&table), (0, 0, 7_999_992));
}

/// For graphs with too many chains to list.
fn agree_margin(table: &Table) -> (u8, u8, i64) {
    let answer = verdict(&file(table));
    (answer.number, answer.task, answer.margin)
}

#[test]
fn unreadable_files() {
    let r = &mut Random::new(33);
    for _ in 0..5_000 {
        let mut bytes = file(&table_sized(r, 2, 3));
        damage(r, &mut bytes);
        let found = read(&bytes);
        let answer = verdict(&bytes);
        if found.number != 0 {
            let (number, place) = (found.number, found.place);
            let expected = Verdict {
                number,
                place,
                task: 255,
                margin: 0,
                chain: chain::Chain::NONE,
            };
            assert_eq!(answer, expected);
        } else {
            assert_eq!(answer, judge(&found.table));
        }
    }
}
