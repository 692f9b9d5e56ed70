//! Writing: each number at its place, round trips, what the buffer holds.

use second::examples::TABLE_A;
use second::random::*;
use second::table::LARGEST;
use second::*;

const FILL: u8 = 0xA5;

/// Writes into a filled buffer; a refusal must leave it, success only its
/// front changed.
fn written(table: &Table, length: usize) -> (u8, usize) {
    let mut buffer = vec![FILL; length];
    let (number, place) = write(table, &mut buffer);
    let changed = if number == 0 { place } else { 0 };
    assert!(buffer[changed..].iter().all(|byte| *byte == FILL));
    if number == 0 {
        assert_eq!(read(&buffer[..place]).table, *table);
    }
    (number, place)
}

fn table_a() -> Table {
    read(&TABLE_A).table
}

fn a_with(change: impl Fn(&mut Table)) -> (u8, usize) {
    let mut table = table_a();
    change(&mut table);
    written(&table, 100)
}

#[test]
fn table_a_comes_back() {
    let mut buffer = [FILL; 60];
    assert_eq!(write(&table_a(), &mut buffer), (0, 52));
    assert_eq!(buffer[..52], TABLE_A);
    assert_eq!(buffer[52..], [FILL; 8]);
    for length in 0..52 {
        assert_eq!(written(&table_a(), length), (9, 52));
    }
    assert_eq!(written(&table_a(), 52), (0, 52));
}

#[test]
fn each_number_at_its_place() {
    assert_eq!(a_with(|t| t.m = 0), (3, 2));
    assert_eq!(a_with(|t| t.m = 9), (3, 2));
    assert_eq!(a_with(|t| t.n = 0), (3, 3));
    assert_eq!(a_with(|t| t.n = 17), (3, 3));
    assert_eq!(a_with(|t| t.n = 3), (3, 54));
    assert_eq!(a_with(|t| t.tasks[0].v = 0), (3, 6));
    assert_eq!(a_with(|t| t.tasks[1].v = 17), (3, 34));
    assert_eq!(a_with(|t| t.tasks[0].deadline = 0), (4, 8));
    assert_eq!(a_with(|t| t.tasks[0].period = 1_000_001), (4, 12));
    assert_eq!(a_with(|t| t.tasks[0].deadline = 48), (0, 52));
    assert_eq!(a_with(|t| t.tasks[0].deadline = 49), (5, 12));
    assert_eq!(a_with(|t| t.tasks[1].period = 2), (0, 52));
    assert_eq!(a_with(|t| t.tasks[1].period = 1), (5, 40));
    assert_eq!(a_with(|t| t.costs[2] = 0), (0, 52));
    assert_eq!(a_with(|t| t.costs[2] = 1_000_001), (4, 24));
    assert_eq!(a_with(|t| t.costs[16] = 1_000_000), (0, 52));
    assert_eq!(a_with(|t| t.costs[17] = u32::MAX), (4, 48));
    assert_eq!(a_with(|t| t.tasks[0].succ[0] = 0b111), (6, 28));
    assert_eq!(a_with(|t| t.tasks[0].succ[0] = 0b1110), (6, 32));
    assert_eq!(a_with(|t| t.tasks[0].succ[2] = 0b100), (6, 32));
    assert_eq!(a_with(|t| t.tasks[0].succ[1] = 0b001), (7, 4));
    assert_eq!(a_with(|t| t.tasks[1].succ[1] = 0b001), (0, 54));
    assert_eq!(a_with(|t| t.tasks[1].succ[2] = 1), (10, 0));
    assert_eq!(a_with(|t| t.costs[3] = 1), (10, 0));
    assert_eq!(a_with(|t| t.n = 1), (10, 0));
}

#[test]
fn round_trip_on_random_tables() {
    let r = &mut Random::new(21);
    for at in 0..6_000 {
        let table = if at % 100 == 0 {
            largest_table(r)
        } else {
            table(r)
        };
        let bytes = file(&table);
        let found = read(&bytes);
        assert_eq!((found.number, found.place), (0, 0));
        assert_eq!(found.table, table);
        assert_eq!(bytes, raw(&table));
        let need = bytes.len();
        assert_eq!(written(&table, need + r.below(5)), (0, need));
        assert_eq!(written(&table, r.below(need)), (9, need));
        assert!(at % 100 != 0 || need == LARGEST);
    }
}

/// The refusal that a reader gives for the bytes that a table stands for.
#[test]
fn refuses_as_a_reader_would() {
    let r = &mut Random::new(22);
    let mut counts = [0u32; 11];
    for at in 0..60_000 {
        let table = if at % 20 == 0 {
            wild_table(r)
        } else {
            let base = table_sized(r, at % 4 + 1, 5);
            let changes = r.below(3) + 1;
            damaged_table(r, &base, changes)
        };
        let length = r.pick(&[0, 100, LARGEST]);
        let (number, place) = written(&table, length);
        counts[usize::from(number)] += 1;
        let reader = read(&raw(&table));
        match number {
            0 | 9 | 10 => {
                // Only unused entries part the table from what is read.
                assert_eq!(reader.number, 0);
                assert_eq!(reader.table != table, number == 10);
                let need = raw(&table).len();
                match number {
                    10 => assert_eq!(place, 0),
                    _ => assert_eq!((place, need > length), (need, number == 9)),
                }
            }
            _ => assert_eq!((number, place), (reader.number, reader.place)),
        }
    }
    assert_eq!((counts[1], counts[2], counts[8]), (0, 0, 0));
    for number in [0, 3, 4, 5, 6, 7, 9, 10] {
        assert!(counts[number] > 100, "{counts:?}");
    }
}
