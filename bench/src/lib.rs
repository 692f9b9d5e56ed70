//! Tables of the sizes that are measured, and runs of them.

pub mod plain;
pub mod plain_check;
pub mod ticking;

use second::machine::{fits, Phase};
use second::random::{random_edges, ticks, Random};
use second::table::{AGES, ENTRIES, MOST_TICKS};
use second::{State, Table, Task};

/// A size of table, with some tables of it.
pub struct Size {
    pub name: &'static str,
    pub tables: Vec<Table>,
}

/// Tables of each size: the largest file, as many vertices without an edge, and a typical one.
pub fn sizes(r: &mut Random, count: usize) -> Vec<Size> {
    let mut size = |name, n, v, density| Size {
        name,
        tables: (0..count).map(|_| table(r, n, v, density)).collect(),
    };
    vec![
        size("16 tasks of 16 vertices, 120 edges", 16, 16, 16),
        size("16 tasks of 16 vertices, no edges", 16, 16, 0),
        size("4 tasks of 6 vertices, some edges", 4, 6, 6),
    ]
}

/// n tasks of v vertices each, with `density` of 16 pairs of vertices joined.
fn table(r: &mut Random, n: usize, v: usize, density: usize) -> Table {
    let mut table = Table {
        m: r.range(1, 8) as u8,
        n: n as u8,
        ..Table::ZERO
    };
    for i in 0..n {
        let (one, other) = (ticks(r), ticks(r));
        table.tasks[i] = Task {
            v: v as u8,
            deadline: one.min(other),
            period: one.max(other),
            succ: random_edges(r, v, density),
        };
        table.costs[16 * i..][..v].fill_with(|| ticks(r));
    }
    table
}

/// An accepted table in which one task, or the last, has a deadline that it cannot keep; nothing that is due for the others changes.
pub fn refused(mut table: Table, task: usize) -> Table {
    let task = task.min(usize::from(table.n) - 1);
    table.tasks[task].deadline = 1;
    let answer = second::verdict::judge(&table);
    assert_eq!((answer.number, usize::from(answer.task)), (20, task));
    table
}

/// The same graphs with ticks that the verdict accepts, so that every task has to be looked at: costs up to 900, deadlines from half
/// of the most ticks on.
pub fn accepted(r: &mut Random, table: &Table) -> Table {
    let mut table = *table;
    for task in &mut table.tasks[..usize::from(table.n)] {
        task.deadline = r.range(MOST_TICKS / 2, MOST_TICKS);
        task.period = r.range(task.deadline, MOST_TICKS);
    }
    table.costs = table.costs.map(|cost| cost.min(1 + cost % 900));
    assert_eq!(second::verdict::judge(&table).number, 0);
    table
}

/// The same graphs with D four times T and costs from 2,000 on, and a state with four live jobs of each task, none of which is due or
/// released again while it is measured.
pub fn deep(r: &mut Random, table: &Table) -> (Table, State) {
    let mut table = *table;
    let mut state = State::zeros(0, Phase::Running);
    for i in 0..usize::from(table.n) {
        let period = r.range(MOST_TICKS / 5, MOST_TICKS / 4);
        let oldest = r.range(period / 2, period - 1);
        let task = &mut table.tasks[i];
        task.period = period;
        task.deadline = AGES as u32 * period;
        table.costs[ENTRIES * i..][..usize::from(task.v)].fill_with(|| r.range(2_000, 9_000));
        for age in 0..AGES {
            state.put_job(i, age, oldest + age as u32 * period, table.costs_of(i));
        }
        state.tasks[i].wait = oldest;
    }
    assert!(fits(&table, &state));
    (table, state)
}

/// The same graphs with deadlines and periods of very different size, so that many jobs of a task come within another's deadline; both
/// verdicts accept, so that every task has to be looked at: costs up to 20, deadlines from 10,000 on.
pub fn varied(r: &mut Random, table: &Table) -> Table {
    let mut table = *table;
    for task in &mut table.tasks[..usize::from(table.n)] {
        task.deadline = 10_000 * r.pick(&[1, 2, 5, 10, 20, 50]) + r.range(0, 9_999);
        task.period = r.range(task.deadline, 2 * task.deadline).min(MOST_TICKS);
    }
    table.costs = table.costs.map(|cost| cost.min(1 + cost % 20));
    assert_eq!(second::verdict::judge(&table).number, 0);
    assert_eq!(second::sharp::judge_sharp(&table).number, 0);
    table
}
