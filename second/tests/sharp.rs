//! The sharp verdict against figures told plainly from their definition, and
//! beside the old one.

mod common;

use common::{onward, sum_of};
use second::examples::{table_lowest, table_p5, REPORT_A, TABLE_A};
use second::explore::small_tables;
use second::random::*;
use second::sharp::*;
use second::table::{least_period, most_deadline, ENTRIES, MOST_TICKS};
use second::verdict::{figures, judge};
use second::*;

/// The longest chain after a vertex, over a list of all.
fn tail_by_listing(task: &Task, costs: &[u32; ENTRIES], h: usize) -> i64 {
    let mut all = Vec::new();
    onward(&task.succ, vec![h as u8], &mut all);
    let after = all.iter().map(|chain| sum_of(&chain[1..], costs));
    after.max().unwrap() as i64
}

fn same_tails(table: &Table) {
    let tails = all_tails(table);
    for i in 0..usize::from(table.n) {
        let task = &table.tasks[i];
        for h in 0..usize::from(task.v) {
            let listed = tail_by_listing(task, table.costs_of(i), h);
            assert_eq!(tails[i][h], listed);
        }
    }
}

#[test]
fn tails_by_listing() {
    let r = &mut Random::new(107);
    for _ in 0..2_000 {
        same_tails(&table_sized(r, 2, 8));
        same_tails(&tiny_table(r, true));
    }
    for _ in 0..3 {
        let mut table = largest_table(r);
        table.n = 1;
        same_tails(&table);
    }
}

#[test]
fn a_tail_leaves_its_vertex_out() {
    let table = read(&TABLE_A).table;
    let tails = all_tails(&table);
    assert_eq!(tails[0][..3], [3, 0, 0]);
    assert_eq!(tails[1][..2], [0, 0]);
}

fn same_part(cost: u32, tail: u32, period: u32, window: u32) {
    let [cost, tail, period, window] = [cost, tail, period, window].map(i64::from);
    let share = Share {
        cost,
        tail,
        period,
        window,
    };
    assert_eq!(part(share), part_by_the_word(share), "{share:?}");
}

#[test]
fn the_closed_form_is_the_sum() {
    for cost in 0..=9 {
        for tail in 0..=13 {
            for period in 1..=13 {
                (1..=12).for_each(|window| same_part(cost, tail, period, window));
            }
        }
    }
    let r = &mut Random::new(108);
    for _ in 0..20_000 {
        let window = ticks(r);
        let period = r.range(window.div_ceil(500), MOST_TICKS);
        let (cost, tail) = (ticks(r), ticks(r) + ticks(r) - 2);
        same_part(cost, tail, period, window);
        same_part(cost, tail % window, period.min(window), window);
        same_part(0, tail, period, window);
    }
    for cost in [0, 1, 999, 999_999, MOST_TICKS] {
        for tail in [0, 1, 999_999, MOST_TICKS, 15 * MOST_TICKS] {
            for period in [1, 2, 7] {
                same_part(cost, tail, period, MOST_TICKS);
            }
        }
    }
}

/// len, due and margin of a task, in wide numbers.
fn plain(table: &Table, k: usize) -> [i128; 3] {
    let task = &table.tasks[k];
    let d = i128::from(task.deadline);
    let mut due = 0;
    let mut len = 0;
    for i in 0..usize::from(table.n) {
        let (other, costs) = (&table.tasks[i], table.costs_of(i));
        for h in 0..usize::from(other.v) {
            let tail = i128::from(tail_by_listing(other, costs, h));
            let cost = i128::from(costs[h]);
            if i == k {
                len = len.max(cost + tail);
            }
            let mut from = 0;
            while from < d {
                due += cost.min((d - from - tail).max(0));
                from += i128::from(other.period);
            }
        }
    }
    let m = i128::from(table.m);
    [len, due, m * d - (m - 1) * len - due]
}

/// The verdict told from all tasks' figures; the figures themselves; what holds
/// beside the old verdict.
fn agree(table: &Table) -> Verdict {
    let n = usize::from(table.n);
    let rows: Vec<_> = (0..n).map(|k| plain(table, k)).collect();
    for (k, row) in rows.iter().enumerate() {
        let f = sharp_figures(table, k);
        assert_eq!([f.len, f.due, f.margin].map(i128::from), *row);
    }
    let answer = sharp(&file(table));
    assert_eq!(answer, judge_sharp(table));
    let deadline = |k: usize| i128::from(table.tasks[k].deadline);
    let long = (0..n).find(|k| rows[*k][0] > deadline(*k));
    let negative = (0..n).find(|k| rows[*k][2] < 0);
    let least = rows.iter().map(|row| row[2]).min().unwrap();
    let (number, k) = match (long, negative) {
        (Some(k), _) => (22, k),
        (_, Some(k)) => (23, k),
        _ => (0, rows.iter().position(|row| row[2] == least).unwrap()),
    };
    assert_eq!((answer.number, answer.place), (number, 0));
    assert_eq!(usize::from(answer.task), k);
    assert_eq!(i128::from(answer.margin), rows[k][2]);
    let task = &table.tasks[k];
    let chain = chain::longest_named(&task.succ, table.costs_of(k), usize::from(task.v));
    assert_eq!(answer.chain, chain);
    beside_the_old(table);
    answer
}

/// The sharp due is at most the old one, so what the old verdict accepts the
/// sharp one accepts. A chain longer than D takes up all of D by itself, so the
/// margin is then never above 0, and below 0 unless there is one processor.
fn beside_the_old(table: &Table) {
    let (old, new) = (judge(table), judge_sharp(table));
    for k in 0..usize::from(table.n) {
        let (was, is) = (figures(table, k), sharp_figures(table, k));
        assert!(is.due <= was.due && is.margin >= was.margin, "{table:?}");
        assert_eq!((is.vol, is.len), (was.vol, was.len));
    }
    assert!(old.number != 0 || new.number == 0, "{table:?}");
    if new.number == 22 {
        assert!(new.margin < i64::from(table.m == 1), "{table:?}");
    }
}

#[test]
fn figures_and_answers() {
    let r = &mut Random::new(109);
    for _ in 0..1_000 {
        let n = r.below(6) + 1;
        let mut table = table_sized(r, n, 5);
        for task in &mut table.tasks[..n] {
            task.deadline = task.deadline.min(2_000);
        }
        agree(&table);
        agree(&tiny_table(r, true));
    }
}

#[test]
fn tables_near_the_edge() {
    let r = &mut Random::new(110);
    let (mut met, mut apart, mut zero, mut edge_of_22) = ([0; 24], 0, 0, 0);
    for _ in 0..2_000 {
        let n = r.below(4) + 1;
        let scale = r.pick(&[12, 40, 300]);
        let table = if r.one_in(3) {
            short_beside_long(r, scale / 4)
        } else {
            near_sharp_edge(r, n, 5, scale)
        };
        let answer = agree(&table);
        met[usize::from(answer.number)] += 1;
        zero += u32::from(answer.margin == 0);
        apart += u32::from(answer.number == 0 && judge(&table).number != 0);
        edge_of_22 += u32::from(answer.number == 22 && answer.margin == 0);
    }
    assert!(met[0] > 500 && met[22] > 200 && met[23] > 500, "{met:?}");
    assert!(apart > 300 && zero > 200, "{apart} {zero}");
    assert!(edge_of_22 > 10, "{edge_of_22}");
}

/// 22 is looked for over all tasks first.
#[test]
fn a_long_chain_goes_before_a_lower_task_with_a_negative_margin() {
    let mut table = read(&TABLE_A).table;
    table.m = 1;
    assert_eq!(agree(&table).number, 23);
    table.tasks[1].deadline = 1;
    let answer = agree(&table);
    assert_eq!((answer.number, answer.task), (22, 1));
    assert!(sharp_figures(&table, 0).margin < 0);
}

#[test]
fn every_tiny_table_that_the_old_verdict_accepts() {
    let (mut old, mut new) = (0, 0);
    small_tables(4, |table| {
        beside_the_old(table);
        old += u32::from(judge(table).number == 0);
        new += u32::from(judge_sharp(table).number == 0);
        true
    });
    assert!(old > 30_000 && new > old + 5_000, "{old} {new}");
}

/// Number, task and margin.
fn short(bytes: &[u8]) -> (u8, u8, i64) {
    let answer = sharp(bytes);
    (answer.number, answer.task, answer.margin)
}

#[test]
fn the_examples_of_document_01() {
    assert_eq!(short(&TABLE_A), (0, 1, 0));
    let mut one = TABLE_A;
    one[2] = 1;
    assert_eq!(short(&one), (23, 0, -4));
    let text = String::from_utf8(sharp_report(&one)).unwrap();
    assert!(text.ends_with("\nrefuse 23 task 0 margin -4 chain 0 1\n"));
    assert_eq!(short(&table_p5()), (22, 1, -7_000_248));
    assert_eq!(sharp_report(&TABLE_A), REPORT_A.as_bytes());
}

/// m 2, one vertex of cost 7 and then 8, D = T = 7: the chain is too long, and
/// only 7 of it is due.
#[test]
fn one_vertex_too_long() {
    let mut table = Table {
        m: 2,
        n: 1,
        ..Table::ZERO
    };
    examples::plain_task(&mut table, 0, 7, 7, &[7]);
    assert_eq!(short(&file(&table)), (0, 0, 0));
    table.costs[0] = 8;
    assert_eq!(short(&file(&table)), (22, 0, -1));
    table.m = 1;
    assert_eq!(short(&file(&table)), (22, 0, 0));
    let text = String::from_utf8(sharp_report(&file(&table))).unwrap();
    assert!(text.ends_with("\nrefuse 22 task 0 margin 0 chain 0\n"));
}

/// What task 0 adds at the most: a chain of n vertices takes (m - 1) times its
/// sum and is due at most D, D - T, D - 2 T and D - 3 T, 2,500,000 in all; a
/// vertex beside it is due as much, but takes less than the 7,000,000 that it
/// would in the chain. So all sixteen stand in the chain. The 240 others are due
/// D (D + 1) / 2 each, no tail and T = 1.
const LEAST: i64 = 8_000_000 - 7 * 16_000_000 - 2_500_000 - 240 * 500_000_500_000;
const MOST: i64 = 8_000_000;

#[test]
fn both_ends_of_the_margin() {
    let table = table_lowest();
    assert_eq!(LEAST, -120_000_226_500_000);
    assert_eq!(short(&file(&table)), (22, 0, LEAST));
    let tails = all_tails(&table);
    let due = sharp_due(&table, &tails, 0, part_by_the_word);
    assert_eq!(8 * 1_000_000 - 7 * 16_000_000 - due, LEAST);
    let mut table = Table {
        m: 8,
        n: 1,
        ..Table::ZERO
    };
    examples::plain_task(&mut table, 0, MOST_TICKS, MOST_TICKS, &[0]);
    assert_eq!(short(&file(&table)), (0, 0, MOST));
}

/// Nothing lower, nothing higher: every number at an end of its range, and the
/// lowest table with a few numbers changed.
#[test]
fn no_margin_beyond_the_ends() {
    let r = &mut Random::new(111);
    let mut least = 0;
    for round in 0..20_000 {
        let mut table = match round % 4 {
            0 => largest_table(r),
            1 => table(r),
            _ => table_lowest(),
        };
        for _ in 0..r.below(6) {
            change_to_an_end(r, &mut table);
        }
        for k in 0..usize::from(table.n) {
            let margin = sharp_figures(&table, k).margin;
            assert!((LEAST..=MOST).contains(&margin), "{margin} {table:?}");
            least = least.min(margin);
        }
    }
    assert_eq!(least, LEAST);
}

fn change_to_an_end(r: &mut Random, table: &mut Table) {
    let i = r.below(usize::from(table.n));
    let v = usize::from(table.tasks[i].v);
    let at = ENTRIES * i + r.below(v);
    let density = r.pick(&[0, 1, 2, 16]);
    let task = &mut table.tasks[i];
    match r.below(6) {
        0 => table.m = r.pick(&[1, 8]),
        1 => task.succ = random_edges(r, v, density),
        2 => task.deadline = r.pick(&[1, task.period, most_deadline(task.period)]),
        3 => task.period = r.pick(&[least_period(task.deadline), task.deadline, MOST_TICKS]),
        4 => table.costs[at] = r.pick(&[0, 1, MOST_TICKS]),
        _ => {
            task.period = r.pick(&[1, 2, 250_000, MOST_TICKS]);
            task.deadline = r.pick(&[task.period, most_deadline(task.period)]);
        }
    }
}

#[test]
fn unreadable_files_and_reports() {
    let r = &mut Random::new(112);
    for _ in 0..3_000 {
        let mut bytes = file(&near_sharp_edge(r, 2, 4, 30));
        damage(r, &mut bytes);
        let (old, new) = (verdict(&bytes), sharp(&bytes));
        let found = read(&bytes);
        if found.number != 0 {
            assert_eq!(new, old);
            assert_eq!(sharp_report(&bytes), report(&bytes));
            continue;
        }
        let text = String::from_utf8(sharp_report(&bytes)).unwrap();
        let lines: Vec<_> = text.lines().collect();
        assert_eq!(lines.len(), usize::from(found.table.n) + 2);
        for (k, line) in lines[1..=usize::from(found.table.n)].iter().enumerate() {
            let f = sharp_figures(&found.table, k);
            let (vol, len) = (f.vol, f.len);
            let said = format!(
                "task {k} vol {vol} len {len} due {} margin {}",
                f.due, f.margin
            );
            assert_eq!(*line, said);
        }
        let chain: Vec<_> = new.chain.list().iter().map(u8::to_string).collect();
        let named = format!(
            "task {} margin {} chain {}",
            new.task,
            new.margin,
            chain.join(" ")
        );
        let last = match new.number {
            0 => format!("accept {named}"),
            number => format!("refuse {number} {named}"),
        };
        assert_eq!(lines[lines.len() - 1], last);
    }
}
