//! Reading: each number at its place, and what is tested before what.

use second::examples::TABLE_A;
use second::random::*;
use second::*;

/// The first bytes of A's fields.
const FIELDS: [usize; 20] = [
    0, 2, 3, 4, 6, 7, 8, 12, 16, 20, 24, 28, 30, 32, 34, 35, 36, 40, 44, 48,
];

fn with(changes: &[(usize, &[u8])]) -> Vec<u8> {
    let mut bytes = TABLE_A.to_vec();
    for (at, value) in changes {
        bytes[*at..*at + value.len()].copy_from_slice(value);
    }
    bytes
}

fn gives(bytes: &[u8], number: u8, place: usize) {
    let found = read(bytes);
    assert_eq!((found.number, found.place), (number, place), "{bytes:?}");
    if number != 0 {
        assert_eq!(found.table, Table::ZERO);
    }
}

#[test]
fn cut_at_every_length() {
    for length in 0..TABLE_A.len() {
        let place = FIELDS.iter().rev().find(|at| **at <= length).unwrap();
        gives(&TABLE_A[..length], 1, *place);
    }
    gives(&TABLE_A, 0, 0);
}

#[test]
fn each_number_at_its_place() {
    let million = 1_000_000u32.to_le_bytes();
    let above = 1_000_001u32.to_le_bytes();
    for at in [0, 1] {
        gives(&with(&[(at, &[0])]), 2, 0);
    }
    for (mark, at) in [(4, 4), (4, 5), (32, 32), (32, 33)] {
        gives(&with(&[(at, &[0x55])]), 2, mark);
    }
    for (at, bad) in [(2, [0, 9]), (3, [0, 17]), (6, [0, 17]), (34, [0, 17])] {
        gives(&with(&[(at, &bad[..1])]), 3, at);
        gives(&with(&[(at, &bad[1..])]), 3, at);
    }
    gives(&with(&[(7, &[121])]), 3, 7);
    gives(&with(&[(35, &[255])]), 3, 35);
    // D and T from 1, a cost from 0.
    for at in [8, 12, 36, 40] {
        gives(&with(&[(at, &[0, 0, 0, 0])]), 4, at);
    }
    for at in [16, 20, 24, 44, 48] {
        gives(&with(&[(at, &[0, 0, 0, 0])]), 0, 0);
    }
    for at in [8, 12, 16, 20, 24, 36, 40, 44, 48] {
        gives(&with(&[(at, &above)]), 4, at);
        gives(&with(&[(at, &[255; 4])]), 4, at);
    }
    for at in [16, 20, 24, 44, 48, 12, 40] {
        gives(&with(&[(at, &million)]), 0, 0);
    }
    for edge in [[3, 0], [0, 3], [0, 0], [1, 1], [255, 0], [0, 255]] {
        gives(&with(&[(28, &edge)]), 6, 28);
    }
    gives(&with(&[(30, &[0, 1])]), 6, 30);
    gives(&with(&[(28, &[0, 2, 0, 1])]), 6, 30);
    gives(&with(&[(28, &[1, 0, 0, 2])]), 6, 30);
    gives(&with(&[(28, &[0, 1, 1, 0])]), 7, 4);
    gives(&with(&[(28, &[0, 1, 1, 2])]), 0, 0);
    for more in [&[0][..], &TABLE_A[..], &[0; 70_000]] {
        gives(&[&TABLE_A[..], more].concat(), 8, 52);
    }
}

#[test]
fn d_up_to_four_times_t() {
    gives(&with(&[(8, &[49])]), 5, 12);
    gives(&with(&[(40, &[1])]), 5, 40);
    for deadline in [12, 13, 48] {
        gives(&with(&[(8, &[deadline])]), 0, 0);
    }
    gives(&with(&[(40, &[2])]), 0, 0);
    // D's own range stays.
    let [less, quarter, million, above] =
        [249_999, 250_000, 1_000_000, 1_000_001].map(u32::to_le_bytes);
    gives(&with(&[(8, &million), (12, &less)]), 5, 12);
    gives(&with(&[(8, &million), (12, &quarter)]), 0, 0);
    gives(&with(&[(8, &above), (12, &million)]), 4, 8);
}

#[test]
fn order_of_the_tests() {
    // 4 goes before 5 at T; 1 before both.
    gives(&with(&[(12, &[0])]), 4, 12);
    gives(&with(&[(8, &[49])])[..15], 1, 12);
    gives(&with(&[(8, &[49]), (12, &[0])]), 4, 12);
    // A wrong byte of a field cut short is 1; a field before it goes first.
    gives(&[0x55], 1, 0);
    gives(&[0x55, 0x42], 2, 0);
    gives(&with(&[(2, &[9])])[..3], 3, 2);
    // A cycle is found after the task's last field, before the next mark.
    let ring = [0, 1, 1, 0];
    gives(&with(&[(28, &ring), (32, &[0])]), 7, 4);
    gives(&with(&[(28, &ring)])[..32], 7, 4);
    gives(&with(&[(28, &ring)])[..31], 1, 30);
    // 8 comes last of all.
    let above = 1_000_001u32.to_le_bytes();
    let longer = [&with(&[(48, &above)])[..], &[1]].concat();
    gives(&longer, 4, 48);
    // A place in a second task's cycle is its own mark.
    let two = [
        0x54, 0x4B, 2, 2, 6, 0, 0, 0, 6, 0, 0, 0, 2, 0, 0, 0, 2, 0, 0, 0,
    ];
    gives(&[&TABLE_A[..32], &two, &[0, 1, 1, 0]].concat(), 7, 32);
}

#[test]
fn from_any_place() {
    let r = &mut Random::new(11);
    for _ in 0..2_000 {
        let mut bytes = file(&table_sized(r, 2, 4));
        if r.coin() {
            damage(r, &mut bytes);
        }
        let start = r.below(9);
        let behind = r.below(4);
        let mut card = vec![7; start];
        card.extend(&bytes);
        let core = read_at(&card, start);
        let alone = read(&bytes);
        if alone.number == 8 {
            assert_eq!((core.number, core.end), (0, start + alone.place));
        } else if alone.number == 0 {
            assert_eq!((core.number, core.place, core.end), (0, 0, card.len()));
            assert_eq!(core.table, alone.table);
            card.extend(vec![7; behind]);
            assert_eq!(read_at(&card, start), core);
        } else {
            let place = start + alone.place;
            assert_eq!((core.number, core.place), (alone.number, place));
            assert_eq!((core.table, core.end), (Table::ZERO, 0));
        }
    }
    for start in [0, 52, 53, 1_000, usize::MAX] {
        let core = read_at(&TABLE_A[..0], start);
        assert_eq!((core.number, core.place), (1, start));
    }
}

#[test]
fn what_reading_accepts_keeps_the_rules() {
    let r = &mut Random::new(12);
    let mut accepted = 0;
    for _ in 0..40_000 {
        let n = r.below(3) + 1;
        let mut bytes = file(&table_sized(r, n, 4));
        if !r.one_in(8) {
            damage(r, &mut bytes);
        }
        let found = read(&bytes);
        accepted += u32::from(found.number == 0);
        if found.number == 0 {
            // The writer's tests are its own; it must find nothing and give
            // the bytes back.
            let mut buffer = vec![0; bytes.len()];
            assert_eq!(write(&found.table, &mut buffer), (0, bytes.len()));
            assert_eq!(buffer, bytes);
        } else {
            assert_eq!(found.table, Table::ZERO);
            assert!((1..=8).contains(&found.number));
            assert!(found.place <= bytes.len());
        }
    }
    assert!(accepted > 5_000, "{accepted}");
    for _ in 0..40_000 {
        let bytes = random_bytes(r, 60);
        assert!(read(&bytes).number <= 8);
    }
}
