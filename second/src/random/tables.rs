//! Random tables: valid ones of every size, those near the verdict's edge,
//! tiny ones, and tables with any number in any field.

use super::Random;
use crate::graph::first;
use crate::table::*;
use crate::verdict::{Way, OLD};

/// The first v numbers in any order.
fn shuffled(r: &mut Random, v: usize) -> [usize; ENTRIES] {
    let mut order: [usize; ENTRIES] = std::array::from_fn(|h| h);
    for h in (1..v).rev() {
        let other = r.below(h + 1);
        order.swap(h, other);
    }
    order
}

/// A start, branches, a join, branches again, and so on, on v vertices.
fn forks_and_joins(r: &mut Random, v: usize) -> [u16; ENTRIES] {
    let order = shuffled(r, v);
    let mut succ = [0; ENTRIES];
    let mut before = 0..1;
    while before.end < v {
        let wide = if before.len() > 1 { 1 } else { r.below(3) + 1 };
        let next = before.end..(before.end + wide).min(v);
        for from in before {
            for to in next.clone() {
                succ[order[from]] |= 1 << order[to];
            }
        }
        before = next;
    }
    succ
}

/// Edges without a cycle on v vertices; `density` of 16 pairs are taken.
pub fn random_edges(r: &mut Random, v: usize, density: usize) -> [u16; ENTRIES] {
    let order = shuffled(r, v);
    let mut succ = [0; ENTRIES];
    for a in 0..v {
        for b in a + 1..v {
            if r.below(16) < density {
                succ[order[a]] |= 1 << order[b];
            }
        }
    }
    succ
}

fn any_density(r: &mut Random) -> usize {
    r.pick(&[0, 0, 1, 3, 8, 15, 16])
}

/// A number of ticks within its range, small, middling, large or at an end.
pub fn ticks(r: &mut Random) -> u32 {
    match r.below(5) {
        0 => r.range(1, 9),
        1 => r.range(1, 1_000),
        2 => r.range(1, MOST_TICKS),
        3 => r.pick(&[1, 2, 255, 256, 65_535, 65_536, 999_999, MOST_TICKS]),
        _ => r.range(1, 60),
    }
}

fn task(r: &mut Random, table: &mut Table, i: usize, v: usize) {
    let one = ticks(r);
    let other = if r.one_in(3) { one } else { ticks(r) };
    let density = any_density(r);
    let succ = if r.one_in(3) {
        forks_and_joins(r, v)
    } else {
        random_edges(r, v, density)
    };
    let (deadline, period) = either_longer(r, one.min(other), one.max(other));
    table.tasks[i] = Task {
        v: v as u8,
        deadline,
        period,
        succ,
    };
    costs(r, table, i, ticks);
}

/// D and T from a smaller and a larger number: mostly D the smaller one; else
/// T, if need be brought up to a quarter of D.
fn either_longer(r: &mut Random, low: u32, high: u32) -> (u32, u32) {
    if r.one_in(3) {
        return (high, low.max(least_period(high)));
    }
    (low, high)
}

/// Costs for the vertices of a task, by `some` or 0: none of them 0, any of
/// them, each other one from the start (forks and joins, or their branches),
/// those where nothing begins or ends, or all.
pub fn costs(r: &mut Random, table: &mut Table, i: usize, some: impl Fn(&mut Random) -> u32) {
    let task = &table.tasks[i];
    let v = usize::from(task.v);
    let entered = task.succ.iter().fold(0, |to, row| to | row);
    let inner = |h: usize| task.succ[h] != 0 && entered >> h & 1 == 1;
    let kind = r.below(10);
    for h in 0..v {
        let nothing = match kind {
            0 => true,
            1 | 2 => r.coin(),
            3 | 4 => steps(&task.succ, h) & 1 == 0,
            5 => steps(&task.succ, h) & 1 == 1,
            6 => inner(h),
            _ => false,
        };
        table.costs[ENTRIES * i + h] = if nothing { 0 } else { some(r) };
    }
}

/// The most edges that lead to a vertex one after the other.
fn steps(succ: &[u16; ENTRIES], h: usize) -> usize {
    let mut most = 0;
    let mut ends: u16 = 1 << h;
    loop {
        let before = (0..ENTRIES).filter(|p| succ[*p] & ends != 0);
        ends = before.fold(0, |set, p| set | 1 << p);
        if ends == 0 {
            return most;
        }
        most += 1;
    }
}

/// A valid table with n tasks of at most `most` vertices each.
pub fn table_sized(r: &mut Random, n: usize, most: usize) -> Table {
    let mut table = Table {
        m: r.range(1, 8) as u8,
        n: n as u8,
        ..Table::ZERO
    };
    for i in 0..n {
        let v = r.below(most) + 1;
        task(r, &mut table, i, v);
    }
    table
}

/// A valid table of any size.
pub fn table(r: &mut Random) -> Table {
    let n = r.below(16) + 1;
    let most = r.below(16) + 1;
    table_sized(r, n, most)
}

/// A valid table of the largest file: sixteen tasks with 120 edges each.
pub fn largest_table(r: &mut Random) -> Table {
    let mut table = table_sized(r, 16, 1);
    for i in 0..ENTRIES {
        table.tasks[i].v = 16;
        table.tasks[i].succ = random_edges(r, 16, 16);
        costs(r, &mut table, i, ticks);
    }
    table
}

/// A valid table near the verdict's edge: about half are accepted, and many
/// named margins are near 0. D and T lie about `scale`.
pub fn near_edge(r: &mut Random, n: usize, most: usize, scale: u32) -> Table {
    near_edge_of(r, &OLD, n, most, scale)
}

/// The same of any way of judging.
pub fn near_edge_of(r: &mut Random, way: &Way, n: usize, most: usize, scale: u32) -> Table {
    let mut table = table_sized(r, n, most);
    table.costs = table.costs.map(|cost| cost.min(1));
    let mut scale = scale;
    loop {
        for task in &mut table.tasks[..n] {
            task.deadline = r.range(scale.div_ceil(2), scale);
            let upto = MOST_TICKS.min(task.deadline.saturating_mul(2));
            let loose = r.range(task.deadline, upto);
            let short = r.range(least_period(task.deadline), task.deadline);
            task.period = r.pick(&[task.deadline, task.deadline, loose, loose, short]);
        }
        if way.judge(&table).number == 0 || scale == MOST_TICKS {
            break;
        }
        scale = MOST_TICKS.min(scale * 2);
    }
    for _ in 0..n + 4 {
        let i = r.below(n);
        let at = ENTRIES * i + r.below(usize::from(table.tasks[i].v));
        let room = room(way, &mut table, at);
        table.costs[at] += if r.one_in(3) { room } else { r.range(0, room) };
    }
    let i = r.below(n);
    let at = ENTRIES * i + r.below(usize::from(table.tasks[i].v));
    let over = u32::from(r.coin()) * r.range(1, 2);
    let filled = table.costs[at] + room(way, &mut table, at) + over;
    table.costs[at] = filled.min(MOST_TICKS);
    table
}

/// By how much this cost can grow so that the table stays accepted, and one
/// tick more is refused.
pub fn room(way: &Way, table: &mut Table, at: usize) -> u32 {
    let was = table.costs[at];
    let good = last_good(MOST_TICKS - was, |more| {
        table.costs[at] = was + more;
        way.judge(table).number == 0
    });
    table.costs[at] = was;
    good
}

/// A number of ticks up to `most` that is good, while one more is not; 0 counts
/// as good, and more than `most` as not.
pub fn last_good(most: u32, mut is_good: impl FnMut(u32) -> bool) -> u32 {
    let (mut good, mut bad) = (0, most + 1);
    while bad - good > 1 {
        let middle = good + (bad - good) / 2;
        if is_good(middle) {
            good = middle;
        } else {
            bad = middle;
        }
    }
    good
}

/// A tiny valid table: m, n and v at most 3, numbers at most 6. A roomy one
/// has costs of 0 or 1 and leans to more tasks, vertices and ticks.
pub fn tiny_table(r: &mut Random, roomy: bool) -> Table {
    let low = if roomy { 2 } else { 1 };
    let mut table = Table {
        m: r.range(low, 3) as u8,
        n: r.range(low, 3) as u8,
        ..Table::ZERO
    };
    let dear = if roomy { 1 } else { r.range(1, 6) };
    for i in 0..usize::from(table.n) {
        let v = r.range(low, 3) as usize;
        let one = r.range(if roomy { 4 } else { 1 }, 6);
        let other = r.range(if roomy { one - 2 } else { 1 }, one);
        let (deadline, period) = either_longer(r, other, one);
        let density = r.pick(&[0, 6, 10, 16]);
        table.tasks[i] = Task {
            v: v as u8,
            deadline,
            period,
            succ: random_edges(r, v, density),
        };
        costs(r, &mut table, i, |r| r.range(1, dear));
    }
    table
}

/// A tiny table of one or two tasks with one or two vertices, T up to `most`
/// and D up to four times T, for exhaustive exploration: costs grow as long as
/// `accepts` says so.
pub fn tiny_long(r: &mut Random, most: u32, accepts: impl Fn(&Table) -> bool) -> Table {
    let mut table = Table {
        m: r.range(1, 8) as u8,
        n: r.range(1, 2) as u8,
        ..Table::ZERO
    };
    for task in &mut table.tasks[..usize::from(table.n)] {
        let v = r.range(1, 2) as usize;
        let density = r.pick(&[0, 16]);
        task.v = v as u8;
        task.succ = random_edges(r, v, density);
        task.period = r.range(1, most);
        task.deadline = r.range(task.period, most_deadline(task.period));
    }
    for _ in 0..40 {
        let i = r.below(usize::from(table.n));
        let at = ENTRIES * i + r.below(usize::from(table.tasks[i].v));
        let was = table.costs[at];
        table.costs[at] = (was + 1).min(15);
        if !accepts(&table) {
            table.costs[at] = was;
        }
    }
    table
}

/// A valid table whose jobs outlive the period: D up to four times T, and costs
/// that take most of it.
pub fn long_table(r: &mut Random) -> Table {
    let n = r.below_either(3, ENTRIES) + 1;
    let mut table = table_sized(r, n, 4);
    table.m = r.pick(&[table.m, 8]);
    for i in 0..n {
        let period = r.range(1, 8);
        let deadline = r.range(period, most_deadline(period));
        let task = &mut table.tasks[i];
        (task.deadline, task.period) = (deadline, period);
        let most = deadline.div_ceil(u32::from(task.v));
        costs(r, &mut table, i, |r| r.range(most.div_ceil(2), most));
    }
    table
}

/// A valid table with `changes` fields set to any number, used or not.
pub fn damaged_table(r: &mut Random, base: &Table, changes: usize) -> Table {
    let mut table = *base;
    for _ in 0..changes {
        let n = usize::from(table.n).clamp(1, ENTRIES);
        let i = r.below_either(n, ENTRIES);
        let v = usize::from(table.tasks[i].v).clamp(1, ENTRIES);
        let h = r.below_either(v, ENTRIES);
        let task = &mut table.tasks[i];
        match r.below(12) {
            0 => table.m = r.number() as u8,
            1 => table.n = r.number() as u8,
            2 => task.v = r.number() as u8,
            3 | 4 => task.deadline = r.number(),
            5 | 6 => task.period = r.number(),
            7 => task.succ[h] = r.word() as u16,
            8 => task.succ[h] ^= 1 << r.below(ENTRIES),
            9 => task.succ[h] ^= 1 << r.below(v),
            10 => task.succ[h] = first(r.below(ENTRIES + 1)),
            _ => table.costs[ENTRIES * i + h] = r.number(),
        }
    }
    table
}

/// A table with any number in every field.
pub fn wild_table(r: &mut Random) -> Table {
    let mut table = Table::ZERO;
    table.m = r.number() as u8;
    table.n = r.number() as u8;
    for task in &mut table.tasks {
        task.v = r.number() as u8;
        task.deadline = r.number();
        task.period = r.number();
        task.succ = std::array::from_fn(|_| r.word() as u16);
    }
    table.costs = std::array::from_fn(|_| r.number());
    table
}
