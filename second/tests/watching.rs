//! The text of a run: table A by hand, inputs cut short, and all that a line
//! may say.

use second::examples::TABLE_A;
use second::random::*;
use second::vectors::*;
use second::watch;
use second::watch::Run;

fn shown(table: &[u8], clock: u32, releases: &[u16]) -> String {
    let run = Run {
        table: table.to_vec(),
        clock,
        releases: releases.to_vec(),
    };
    String::from_utf8(watch(&run.input())).unwrap()
}

/// P9, P10 and P11, and a number that no task has.
#[test]
fn table_a() {
    let text = shown(&TABLE_A, 0, &[3, 0, 0, 0, 0, 2, 0, 2, 0x8001, 0]);
    let expected = "\
open 0 processors 2 tasks 2
tick 0 release 0 1 run 1.0.0 1.0.1 finish - left 0.0:6 1.0:2
tick 1 release - run 1.0.0 1.0.1 finish 1 left 0.0:6
tick 2 release - run 0.0.0 finish - left 0.0:5
tick 3 release - run 0.0.0 finish - left 0.0:4
tick 4 release - run 0.0.1 0.0.2 finish - left 0.0:2
tick 5 release 1 refuse 33 task 1
tick 5 release - run 0.0.1 finish - left 0.0:1
tick 6 release 1 run 0.0.1 1.0.0 finish 0 left 1.0:3
tick 7 release 0 15 refuse 31 task 15
tick 7 release - run 1.0.0 1.0.1 finish - left 1.0:1
";
    assert_eq!(text, expected);
}

/// P2's table misses; the machine then stays where it stopped.
#[test]
fn a_miss() {
    let mut table = TABLE_A;
    table[2] = 1;
    let text = shown(
        &table,
        4_294_967_295,
        &[3, 0, 0, 0, 0, 0, 2, 0, 0, 0, 0, 0, 0, 1],
    );
    let last: Vec<&str> = text.lines().rev().take(3).collect();
    assert_eq!(
        last[2],
        "tick 10 release - run 1.0.0 finish - left - miss 1"
    );
    assert_eq!(last[1], "tick 11 release - refuse 32");
    assert_eq!(last[0], "tick 11 release 0 refuse 32");
}

/// Where the input ends within the table the answer is that of the bytes that
/// are there; within the clock the rest of it is 0; within a release set the
/// odd byte is ignored.
#[test]
fn cut_short() {
    let run = Run {
        table: TABLE_A.to_vec(),
        clock: 0x0403_0201,
        releases: vec![3, 0],
    };
    let input = run.input();
    for length in 0..input.len() {
        let text = String::from_utf8(watch(&input[..length])).unwrap();
        let there = &TABLE_A[..length.saturating_sub(2).min(52)];
        let found = second::read(there);
        if found.number != 0 {
            assert_eq!(
                text,
                format!("refuse {} at {}\n", found.number, found.place)
            );
            continue;
        }
        let clock = [0, 0x01, 0x0201, 0x03_0201, 0x0403_0201][(length - 54).min(4)];
        let first = format!("open {clock} processors 2 tasks 2");
        assert_eq!(text.lines().next(), Some(first.as_str()));
        assert_eq!(text.lines().count(), 1 + length.saturating_sub(58) / 2);
    }
}

/// The recorded cases show every kind of line.
#[test]
fn cases_for_the_watch_program() {
    let cases = watch_cases(1);
    let stream = read_stream(&cases);
    let answers = answer_watches(&stream).unwrap();
    assert_eq!(answers.len(), cases.len());
    assert!(stream.len() < 100_000, "{}", stream.len());
    let text: Vec<u8> = cases.iter().flat_map(|case| watch(case)).collect();
    let text = String::from_utf8(text).unwrap();
    let count = |part: &str| text.matches(part).count();
    for number in 1..=8 {
        assert!(count(&format!("\nrefuse {number} at ")) > 0, "{number}");
    }
    assert!(count(" refuse 31 task ") > 20 && count(" refuse 33 task ") > 20);
    assert!(count(" refuse 32\n") > 20 && count(" miss ") > 20);
    assert!(count(" left - miss ") > 20 && count(" left 0.0:") > 100 && count(" left -\n") > 100);
    assert!(count("release -") > 100 && count("run -") > 100 && count("finish -") > 100);
    assert!(count("tick 4294967295 ") > 10 && count("tick 0 ") > 10);
    assert_eq!(count(" refuse 30"), 0);
    // Up to four jobs of a task that run, and three after a tick.
    for part in [" 0.1.0", " 0.2.0", " 0.3.0", " 0.1:", " 0.2:", " 1.1."] {
        assert!(count(part) > 5, "{part}: {}", count(part));
    }
}

/// What a run stands for comes back from its input.
#[test]
fn inputs_and_back() {
    for seed in 0..200 {
        let run = run(&mut Random::new(seed), 20);
        assert_eq!(Run::of(&run.input()), run);
    }
}
