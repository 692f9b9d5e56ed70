//! Cases for the reader.

use crate::examples::TABLE_A;
use crate::random::*;
use crate::table::*;

/// A kind of field in a file.
#[derive(Clone, Copy, PartialEq, Eq, Debug)]
enum Kind {
    Mark,
    Processors,
    Tasks,
    Vertices,
    Edges,
    Deadline,
    Period,
    Cost,
    /// The task's v.
    Edge(u8),
}

/// Every field of a valid table's file with its first byte.
fn fields(table: &Table) -> Vec<(Kind, usize)> {
    let mut list = vec![(Kind::Mark, 0), (Kind::Processors, 2), (Kind::Tasks, 3)];
    let mut at = 4;
    for task in &table.tasks[..usize::from(table.n)] {
        let head = [
            (Kind::Mark, at),
            (Kind::Vertices, at + 2),
            (Kind::Edges, at + 3),
            (Kind::Deadline, at + 4),
            (Kind::Period, at + 8),
        ];
        list.extend(head);
        at += 12;
        for _ in 0..task.v {
            list.push((Kind::Cost, at));
            at += 4;
        }
        for _ in 0..task.succ.iter().map(|row| row.count_ones()).sum() {
            list.push((Kind::Edge(task.v), at));
            at += 2;
        }
    }
    list
}

/// Values that a kind of field is set to, as bytes from its place on.
fn values(kind: Kind) -> Vec<Vec<u8>> {
    let one = |row: &[u8]| row.iter().map(|byte| vec![*byte]).collect();
    let four = |row: &[u32]| row.iter().map(|n| n.to_le_bytes().to_vec()).collect();
    match kind {
        Kind::Mark => [[0x42, 0x54], [0x54, 0x00], [0x00, 0x4B], [0x54, 0x43]]
            .iter()
            .map(|mark| mark.to_vec())
            .collect(),
        Kind::Processors => one(&[0, 1, 8, 9, 255]),
        Kind::Tasks | Kind::Vertices => one(&[0, 1, 16, 17, 255]),
        Kind::Edges => one(&[0, 1, 120, 121, 255]),
        Kind::Deadline | Kind::Period => {
            four(&[0, 1, 1_000_000, 1_000_001, 0x8000_0001, 0xFFFF_FFFF])
        }
        Kind::Cost => four(&[0, 1, 1_000_000, 1_000_001, 0xFFFF_FFFF]),
        Kind::Edge(v) => [[0, 0], [0, v], [v, 0], [v - 1, v - 1], [0, 255], [255, 1]]
            .iter()
            .map(|edge| edge.to_vec())
            .collect(),
    }
}

/// Every field of a table set to each of its values.
fn field_cases(table: &Table, cases: &mut Vec<Vec<u8>>) {
    let bytes = file(table);
    for (kind, at) in fields(table) {
        for value in values(kind) {
            let mut case = bytes.clone();
            case[at..at + value.len()].copy_from_slice(&value);
            cases.push(case);
        }
        if let Kind::Edge(_) = kind {
            // The same edge twice, the edge before it first, ends exchanged.
            let mut case = bytes.clone();
            case.swap(at, at + 1);
            cases.push(case);
            let before = bytes[at - 2..at].to_vec();
            let mut case = bytes.clone();
            case[at..at + 2].copy_from_slice(&before);
            cases.push(case.clone());
            case[at - 2..at].copy_from_slice(&bytes[at..at + 2]);
            cases.push(case);
        }
    }
}

/// D and T about one another: T one below, at and one above D, and the same
/// about the least T that goes with D.
fn deadline_cases(r: &mut Random, cases: &mut Vec<Vec<u8>>) {
    for deadline in [1, 2, 255, 256, 65_535, 65_536, 999_999, 1_000_000] {
        let least = least_period(deadline);
        for period in (least - 1..=least + 1).chain(deadline - 1..=deadline + 1) {
            let n = r.below(3) + 1;
            let mut table = table_sized(r, n, 2);
            table.tasks[n - 1].deadline = deadline;
            table.tasks[n - 1].period = period;
            cases.push(raw(&table));
        }
    }
}

/// Valid tables of every n and v, with few edges and with all.
fn sized_cases(r: &mut Random, cases: &mut Vec<Vec<u8>>) {
    for n in 1..=16 {
        for most in [1, 1, 2, 3] {
            cases.push(file(&table_sized(r, n, most)));
        }
    }
    for v in 1..=16 {
        for density in [0, 3, 8, 16] {
            let mut table = table_sized(r, 1, 1);
            table.tasks[0].v = v as u8;
            table.tasks[0].succ = random_edges(r, v, density);
            for h in 0..v {
                table.costs[h] = ticks(r);
            }
            cases.push(file(&table));
        }
    }
    for _ in 0..3 {
        cases.push(file(&table(r)));
    }
    let most = file(&largest_table(r));
    let mut longer = most.clone();
    longer.push(0);
    cases.extend([most, longer]);
}

/// A cycle in some task, of two vertices or more.
fn cycle_cases(r: &mut Random, cases: &mut Vec<Vec<u8>>) {
    for _ in 0..160 {
        let n = r.below(3) + 1;
        let mut table = table_sized(r, n, 5);
        let i = r.below(n);
        let v = r.below(5) + 2;
        table.tasks[i].v = v as u8;
        table.tasks[i].succ = random_edges(r, v, 5);
        for h in 0..v {
            table.costs[ENTRIES * i + h] = ticks(r);
        }
        let round = r.range(2, v as u32) as usize;
        for h in 0..round {
            table.tasks[i].succ[h] |= 1 << ((h + 1) % round);
        }
        cases.push(raw(&table));
    }
    // The longest ring, the full graph with one edge turned round, a cycle
    // behind another task's.
    let mut table = table_sized(r, 2, 1);
    table.tasks[1].v = 16;
    table.tasks[1].succ = std::array::from_fn(|h| 1 << ((h + 1) % 16));
    table.costs = [1; ROW];
    cases.push(raw(&table));
    table.tasks[0].v = 2;
    table.tasks[0].succ[..2].copy_from_slice(&[2, 1]);
    cases.push(raw(&table));
    table.n = 1;
    table.tasks[0] = table.tasks[1];
    table.tasks[0].succ = std::array::from_fn(|h| (0xFFFEu32 << h) as u16);
    cases.push(raw(&table));
    table.tasks[0].succ[0] &= 0x7FFF;
    table.tasks[0].succ[15] = 1;
    cases.push(raw(&table));
    table.tasks[0].succ[0] |= 0x8000;
    cases.push(raw(&table));
}

/// One field wrong, far into longer files; few of the longest.
fn far_cases(r: &mut Random, cases: &mut Vec<Vec<u8>>) {
    for at in 0..300 {
        let largest = at % 60 == 59;
        let n = r.below(12) + 5;
        let table = if largest {
            largest_table(r)
        } else {
            table_sized(r, n, 5)
        };
        let mut case = file(&table);
        let all = fields(&table);
        let (kind, place) = all[all.len() - 1 - r.below(all.len() / 2)];
        let value = values(kind)[r.below(values(kind).len())].clone();
        case[place..place + value.len()].copy_from_slice(&value);
        if r.one_in(8) {
            case.truncate(place + r.below(2));
        }
        cases.push(case);
    }
}

/// Every case for the reader, the same for the same seed.
pub fn read_cases(seed: u64) -> Vec<Vec<u8>> {
    let r = &mut Random::new(seed);
    let mut cases = vec![Vec::new(), TABLE_A.to_vec()];
    let a = crate::reader::read(&TABLE_A).table;
    sized_cases(r, &mut cases);
    let short: Vec<Table> = (0..12).map(|at| table_sized(r, at % 3 + 1, 4)).collect();
    for table in short[..5].iter().chain([&a]) {
        let bytes = file(table);
        cases.extend((0..bytes.len()).map(|end| bytes[..end].to_vec()));
    }
    for table in short[..7].iter().chain([&a]) {
        field_cases(table, &mut cases);
    }
    deadline_cases(r, &mut cases);
    cycle_cases(r, &mut cases);
    far_cases(r, &mut cases);
    for at in 0..TABLE_A.len() {
        for _ in 0..5 {
            let mut case = TABLE_A.to_vec();
            case[at] = r.byte();
            cases.push(case);
        }
    }
    for _ in 0..900 {
        let mut case = file(&r.pick(&short));
        for _ in 0..r.pick(&[1, 1, 1, 2, 3]) {
            damage(r, &mut case);
        }
        cases.push(case);
    }
    for _ in 0..300 {
        let base = r.pick(&short);
        let changes = r.below(3) + 1;
        cases.push(raw(&damaged_table(r, &base, changes)));
    }
    cases.extend((0..400).map(|_| random_bytes(r, 40)));
    cases
}
