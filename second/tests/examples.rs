//! Every example of document 01, and the report's other lines.

use second::examples::*;
use second::*;

#[test]
fn every_example() {
    let lines = examples(&OWN);
    assert_eq!(lines.len(), 13);
    for line in lines {
        assert!(
            line.ok(),
            "{} gave {}, not {}",
            line.name,
            line.got,
            line.says
        );
    }
}

#[test]
fn table_a_is_what_the_text_says() {
    let table = read(&TABLE_A).table;
    assert_eq!((table.m, table.n), (2, 2));
    let [zero, one] = [table.tasks[0], table.tasks[1]];
    assert_eq!((zero.v, zero.deadline, zero.period), (3, 10, 12));
    assert_eq!((one.v, one.deadline, one.period), (2, 6, 6));
    assert_eq!(zero.succ[..3], [0b110, 0, 0]);
    assert_eq!(table.costs[..4], [2, 3, 1, 0]);
    assert_eq!(table.costs[16..19], [2, 2, 0]);
}

#[test]
fn report_lines() {
    assert_eq!(report(&TABLE_A), REPORT_A.as_bytes());
    assert_eq!(report(&[]), b"unreadable 1 at 0\n");
    let mut one = TABLE_A;
    one[2] = 1;
    let text = String::from_utf8(report(&one)).unwrap();
    assert!(text.starts_with("processors 1 tasks 2\n"));
    assert!(text.ends_with("\nrefuse 20 task 0 margin -4 chain 0 1\n"));
    assert_eq!(text.lines().count(), 4);
    let longer = [&TABLE_A[..], &[7, 7]].concat();
    assert_eq!(report(&longer), b"unreadable 8 at 52\n");
}
