//! Cases for the writer.

use super::*;
use crate::examples::TABLE_A;
use crate::random::*;

/// A base that the reader refuses: the table of zeros.
const ZEROS: [u8; 1] = [0];

fn case(base: &[u8], patches: &[(u16, u32)], buffer: usize) -> WriteCase {
    let patches = patches.iter().map(|(field, value)| Patch {
        field: *field,
        value: *value,
    });
    WriteCase {
        base: base.to_vec(),
        patches: patches.collect(),
        buffer: buffer as u16,
    }
}

/// Every buffer length about a table's file.
fn length_cases(r: &mut Random, cases: &mut Vec<WriteCase>) {
    cases.extend((0..=60).map(|length| case(&TABLE_A, &[], length)));
    for n in 1..=16 {
        let bytes = file(&table_sized(r, n, 2));
        let need = bytes.len();
        for length in [need, need - 1, need + 1, need + 7, 0, r.below(need)] {
            cases.push(case(&bytes, &[], length));
        }
    }
    for _ in 0..60 {
        let n = r.below(3) + 1;
        let bytes = file(&table_sized(r, n, 6));
        cases.push(case(&bytes, &[], bytes.len() + r.below(4)));
        cases.push(case(&bytes, &[], bytes.len() - 1));
    }
    let most = file(&largest_table(r));
    for length in [LARGEST - 1, LARGEST, LARGEST + 1, 65_535] {
        cases.push(case(&most, &[], length));
    }
}

/// Each field of A and of other tables, used or not, set to boundary numbers.
fn field_cases(r: &mut Random, cases: &mut Vec<WriteCase>) {
    let short: Vec<_> = (0..4).map(|at| file(&table_sized(r, at + 1, 3))).collect();
    for base in short.iter().map(|bytes| &bytes[..]).chain([&TABLE_A[..]]) {
        let length = base.len() + 20;
        for value in [0, 1, 2, 3, 8, 9, 16, 17, 255] {
            cases.push(case(base, &[(FIELD_M, value)], length));
            cases.push(case(base, &[(FIELD_N, value)], length));
            for i in [0, 1, 2, 15] {
                cases.push(case(base, &[(field_v(i), value)], length));
            }
        }
        for value in [0, 1, 1_000_000, 1_000_001, 0x8000_0001, 0xFFFF_FFFF] {
            for i in [0, 1, 2, 15] {
                cases.push(case(base, &[(field_d(i), value)], length));
                cases.push(case(base, &[(field_t(i), value)], length));
                for h in [0, 1, 2, 15] {
                    cases.push(case(base, &[(field_cost(i, h), value)], length));
                }
            }
        }
        for bits in [0, 1, 2, 4, 6, 7, 8, 0x8000, 0x8002, 0xFFFF] {
            for (i, h) in [(0, 0), (0, 1), (0, 2), (1, 0), (1, 1), (1, 15), (15, 0)] {
                cases.push(case(base, &[(field_succ(i, h), bits)], length));
            }
        }
    }
}

/// One task of v vertices without edges, then the patches.
fn lone(v: usize, more: &[(u16, u32)], buffer: usize) -> WriteCase {
    let mut patches = vec![(FIELD_M, 3), (FIELD_N, 1), (field_v(0), v as u32)];
    patches.extend([(field_d(0), 50), (field_t(0), 60)]);
    patches.extend((0..v).map(|h| (field_cost(0, h), 1 + h as u32)));
    patches.extend(more);
    case(&ZEROS, &patches, buffer)
}

fn rows(count: usize, bits: impl Fn(usize) -> u32) -> Vec<(u16, u32)> {
    (0..count).map(|h| (field_succ(0, h), bits(h))).collect()
}

/// Counts of edges about 120, bits past v, and cycles.
fn edge_cases(r: &mut Random, cases: &mut Vec<WriteCase>) {
    let full = |h: usize| 0xFFFF & 0xFFFE << h;
    cases.push(lone(16, &rows(16, |_| 0xFFFF), 400));
    cases.push(lone(8, &rows(8, |_| 0xFFFF), 400));
    cases.push(lone(7, &rows(7, |_| 0xFFFF), 400));
    cases.push(lone(16, &rows(16, full), 400));
    cases.push(lone(16, &rows(16, full), 320));
    cases.push(lone(16, &rows(16, full), 319));
    for bits in [1, 0x4000, 0x8000, 0x8001] {
        let mut more = rows(16, full);
        more[15].1 = bits;
        cases.push(lone(16, &more, 400));
        more[0].1 = 0xFFFC;
        cases.push(lone(16, &more, 400));
    }
    for v in 1..=16 {
        let ring = |h: usize| 1 << ((h + 1) % v);
        cases.push(lone(v, &rows(v, ring), 400));
        cases.push(lone(v, &rows(v - 1, ring), 400));
        cases.push(lone(v, &rows(v, |_| 1 << (v % 16)), 400));
        for _ in 0..4 {
            let h = r.below(v);
            let bit = 1u32 << r.below(ENTRIES);
            let open = |at: usize| if at == h { ring(at) | bit } else { ring(at) };
            cases.push(lone(v, &rows(v - 1, open), 400));
        }
    }
}

/// Unused entries, alone and beside a fault of the used ones or a short
/// buffer.
fn unused_cases(cases: &mut Vec<WriteCase>) {
    let mut unused = vec![(field_cost(0, 3), 1), (field_succ(0, 3), 1)];
    unused.extend([(field_cost(1, 2), 1), (field_succ(1, 15), 0x8000)]);
    for i in [2, 9, 15] {
        unused.extend([(field_v(i), 1), (field_d(i), 1), (field_t(i), 1)]);
        unused.extend([(field_cost(i, 0), 1), (field_cost(i, 15), 0xFFFF_FFFF)]);
        unused.extend([(field_succ(i, 0), 1), (field_succ(i, 15), 0x8000)]);
    }
    let faults = [
        (FIELD_M, 9),
        (FIELD_N, 0),
        (field_v(1), 0),
        (field_d(1), 0),
        (field_t(0), 2),
        (field_cost(1, 1), 1_000_001),
        (field_succ(1, 1), 2),
        (field_succ(0, 2), 1),
    ];
    for (at, entry) in unused.iter().enumerate() {
        cases.push(case(&TABLE_A, &[*entry], 60));
        cases.push(case(&TABLE_A, &[*entry], 51));
        cases.push(case(&TABLE_A, &[*entry, faults[at % faults.len()]], 60));
    }
}

/// Many fields at once, mostly small numbers of them.
fn mixed_cases(r: &mut Random, cases: &mut Vec<WriteCase>) {
    for _ in 0..120 {
        let n = r.below(4) + 1;
        let base = file(&table_sized(r, n, 4));
        for _ in 0..5 {
            let count = r.pick(&[1, 2, 2, 3, 5, 20]);
            let patches: Vec<_> = (0..count).map(|_| any_patch(r, n)).collect();
            let length = (base.len() + 9).saturating_sub(r.below(12));
            cases.push(case(&base, &patches, length));
        }
    }
}

/// One wrong field far into longer tables, cycles among them.
fn far_cases(r: &mut Random, cases: &mut Vec<WriteCase>) {
    for at in 0..120 {
        let n = at % 16 + 1;
        let table = table_sized(r, n, 6);
        let base = file(&table);
        let i = n - 1 - r.below(n.div_ceil(2));
        let v = usize::from(table.tasks[i].v);
        let h = r.below(v);
        let length = base.len() + 2 * ENTRIES;
        let all = u32::from(crate::graph::first(v));
        let ring = (0..v).map(|h| (field_succ(i, h), all & !(1 << h)));
        cases.push(case(&base, &ring.collect::<Vec<_>>(), length));
        let bits = u32::from(table.tasks[i].succ[h]) | 1 << r.below(ENTRIES);
        cases.push(case(&base, &[(field_succ(i, h), bits)], length));
        cases.push(case(&base, &[(field_cost(i, h), r.number())], length));
        cases.push(case(&base, &[(field_d(i), r.number())], length));
        cases.push(case(&base, &[(field_t(i), r.number())], length));
        cases.push(case(&base, &[(field_v(i), r.range(0, 18))], length));
    }
}

fn any_patch(r: &mut Random, n: usize) -> (u16, u32) {
    let i = r.below_either(n, n + 1).min(ENTRIES - 1);
    let h = r.below_either(4, 5);
    match r.below(8) {
        0 => (FIELD_M, r.number() & 255),
        1 => (FIELD_N, r.number() & 255),
        2 => (field_v(i), r.range(0, 5)),
        3 => (field_d(i), r.number()),
        4 => (field_t(i), r.number()),
        5 => (field_succ(i, h), 1 << r.below(5)),
        6 => (field_succ(i, h), r.number() & 0xFFFF),
        _ => (field_cost(i, h), r.number()),
    }
}

/// Every case for the writer, the same for the same seed. A base equal to the
/// one before is left out.
pub fn write_cases(seed: u64) -> Vec<WriteCase> {
    let r = &mut Random::new(seed);
    let mut cases = vec![case(&[], &[], 10), case(&[], &[], 0)];
    length_cases(r, &mut cases);
    field_cases(r, &mut cases);
    edge_cases(r, &mut cases);
    unused_cases(&mut cases);
    mixed_cases(r, &mut cases);
    far_cases(r, &mut cases);
    let mut before = Vec::new();
    for case in &mut cases {
        if case.base == before {
            case.base.clear();
        } else {
            before.clone_from(&case.base);
        }
    }
    cases
}
