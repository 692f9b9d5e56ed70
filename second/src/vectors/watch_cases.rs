//! Cases for the watch program.

use crate::examples::{table_long, table_marks, TABLE_A};
use crate::random::*;
use crate::watch::Run;

/// Inputs: table A's examples, one cut short at every place, a table with marks
/// of cost 0, one with long deadlines, random runs, and some of large tables.
pub fn watch_cases(seed: u64) -> Vec<Vec<u8>> {
    let r = &mut Random::new(seed);
    let by_hand = by_hand(0);
    let mut cases: Vec<Vec<u8>> = (0..=by_hand.len()).map(|n| by_hand[..n].to_vec()).collect();
    cases.push(self::by_hand(4_294_967_286));
    cases.extend([0, 4_294_967_290].map(marks));
    cases.extend([0, 4_294_967_290].map(long_deadlines));
    cases.extend(lengths(&by_hand));
    cases.extend(second_edges(&by_hand));
    while cases.len() < 500 {
        let input = run_input(r, 24);
        if input.len() < 300 {
            cases.push(input);
        }
    }
    for _ in 0..200 {
        let table = tiny_table(r, false);
        let run = Run {
            table: raw(&damaged_table(r, &table, 1)),
            clock: r.number(),
            releases: vec![r.word() as u16],
        };
        cases.push(run.input());
    }
    for _ in 0..4 {
        let run = Run {
            table: file(&largest_table(r)),
            clock: r.number(),
            releases: vec![r.word() as u16, 1, 2, 0, 1],
        };
        cases.push(run.input());
    }
    cases
}

/// Table A, both released, one named too early and one that is not there.
fn by_hand(clock: u32) -> Vec<u8> {
    let run = Run {
        table: TABLE_A.to_vec(),
        clock,
        releases: vec![3, 0, 0, 0, 0, 2, 0, 2, 0x8001, 0, 0, 0, 0, 0, 3],
    };
    run.input()
}

/// The table of marks: all released, one by one, and again.
fn marks(clock: u32) -> Vec<u8> {
    let mut releases = vec![7, 0, 0, 0, 4];
    releases.resize(10, 0);
    releases.extend([4, 0, 2, 0]);
    releases.resize(24, 0);
    releases.extend([7, 0, 2]);
    let run = Run {
        table: file(&table_marks()),
        clock,
        releases,
    };
    run.input()
}

/// Each task of the table of long deadlines named as soon as it may be, and
/// twice too early.
fn long_deadlines(clock: u32) -> Vec<u8> {
    let set = |tick: u16| u16::from(tick % 4 == 0) | u16::from(tick % 2 == 0) << 1;
    let mut releases: Vec<u16> = (0..26).map(set).collect();
    releases.insert(14, 1);
    releases.insert(7, 2);
    let run = Run {
        table: file(&table_long()),
        clock,
        releases,
    };
    run.input()
}

/// Table A's second edge made another: a cycle, the first one again, a loop.
fn second_edges(input: &[u8]) -> Vec<Vec<u8>> {
    let with = |edge: [u8; 2]| [&input[..32], &edge, &input[34..]].concat();
    [[1, 0], [0, 1], [1, 1], [2, 1]].map(with).to_vec()
}

/// The same bytes with other lengths of the table before them.
fn lengths(input: &[u8]) -> Vec<Vec<u8>> {
    let with = |length: u16| [&length.to_le_bytes()[..], &input[2..]].concat();
    [0, 1, 51, 53, 86, 87, 88, 255, 256, 5_060, 65_535]
        .map(with)
        .to_vec()
}
