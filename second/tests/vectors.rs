//! The recorded vectors: streams go both ways, all numbers are there.

use second::random::*;
use second::sharp::SHARP;
use second::sum::*;
use second::table::{Table, LARGEST};
use second::vectors::*;
use second::verdict::OLD;

fn numbers(answers: &[Expected]) -> [u32; 11] {
    let mut counts = [0; 11];
    for answer in answers {
        counts[usize::from(answer.number)] += 1;
    }
    counts
}

#[test]
fn cases_for_the_reader() {
    let cases = read_cases(1);
    let stream = read_stream(&cases);
    let answers = answer_reads(&stream).unwrap();
    assert_eq!(answers.len(), cases.len());
    assert!(stream.len() < 600_000 && cases.len() > 3_000);
    let counts = numbers(&answers);
    assert!(counts[..9].iter().all(|count| *count > 50), "{counts:?}");
    let zeros = table_sum(&Table::ZERO);
    for (case, answer) in cases.iter().zip(&answers) {
        let found = second::read(case);
        assert_eq!((found.number, found.place), (answer.number, answer.place));
        assert_eq!(answer.number != 0, answer.sum == zeros);
    }
    assert!(cases.iter().any(|case| case.len() == LARGEST));
    assert_eq!(answer_reads(&stream[..stream.len() - 1]), None);
    assert_eq!(text(&answers).lines().count(), cases.len());
    assert_eq!(text(&answers[..1]), format!("1 0 {zeros}\n"));
}

#[test]
fn cases_for_the_writer() {
    let cases = write_cases(1);
    let stream = write_stream(&cases);
    let answers = answer_writes(&stream).unwrap();
    assert_eq!(answers.len(), cases.len());
    assert!(stream.len() < 600_000 && cases.len() > 2_000);
    let counts = numbers(&answers);
    for number in [0, 3, 4, 5, 6, 7, 9, 10] {
        assert!(counts[number] > 40, "{counts:?}");
    }
    assert_eq!(counts[1] + counts[2] + counts[8], 0);
    assert_eq!(answer_writes(&stream[..stream.len() - 1]), None);
}

#[test]
fn patches_reach_every_field() {
    let r = &mut Random::new(71);
    let wild = wild_table(r);
    let mut table = Table::ZERO;
    let mut set = |field, value| apply(&mut table, Patch { field, value }).unwrap();
    set(FIELD_M, u32::from(wild.m));
    set(FIELD_N, u32::from(wild.n));
    for i in 0..16 {
        set(field_v(i), u32::from(wild.tasks[i].v));
        set(field_d(i), wild.tasks[i].deadline);
        set(field_t(i), wild.tasks[i].period);
        for h in 0..16 {
            set(field_succ(i, h), u32::from(wild.tasks[i].succ[h]));
            set(field_cost(i, h), wild.costs[16 * i + h]);
        }
    }
    assert_eq!(table, wild);
    for (field, value) in [(2, 0), (64, 0), (768, 0), (0, 256), (256, 65_536)] {
        assert_eq!(apply(&mut table, Patch { field, value }), None);
    }
}

#[test]
fn checksums() {
    // Published values of 32-bit FNV-1a.
    assert_eq!(fnv(b""), 0x811C_9DC5);
    assert_eq!(fnv(b"a"), 0xE40C_292C);
    assert_eq!(fnv(b"foobar"), 0xBF9C_F968);
    assert_eq!(canonical(&Table::ZERO), [0; CANONICAL]);
    assert_eq!(CANONICAL, 1_682);
}

#[test]
fn cases_for_the_verdict() {
    let cases = verdict_cases(1);
    let stream = verdict_stream(&cases);
    let both = answer_verdicts(&stream).unwrap();
    let answers: Vec<_> = both.iter().map(|both| both.old).collect();
    assert_eq!(answers.len(), cases.len());
    assert!(stream.len() < 150_000 && cases.len() > 3_000);
    let of = |number| answers.iter().filter(move |a| a.verdict.number == number);
    let accepted = of(0).count();
    assert!(accepted > cases.len() * 2 / 5 && accepted < cases.len() * 3 / 5);
    for number in [0, 20] {
        for task in 0..16 {
            assert!(of(number).any(|a| a.verdict.task == task));
        }
        let near = of(number).filter(|a| a.verdict.margin.abs() < 10);
        assert!(near.count() > 300);
    }
    for number in 1..=8 {
        assert!(of(number).count() > 10, "number {number}");
    }
    let margins = || answers.iter().map(|a| a.verdict.margin);
    assert_eq!(margins().min(), Some(-240_000_168_000_000));
    assert_eq!(margins().max(), Some(8_000_000));
    for (case, answer) in cases.iter().zip(&answers) {
        assert_eq!(judged(&OLD, case), *answer);
    }
    assert_eq!(answer_verdicts(&stream[..stream.len() - 1]), None);
    let first = verdict_text(&both[..2]);
    assert_eq!(
        first,
        "1 0 255 0 0 906459637 18 1653696668\n".repeat(2)
            + &"0 0 1 0 1 4230643882 122 3893237434\n".repeat(2)
    );
    let chains = || answers.iter().map(|a| a.verdict.chain.count);
    for count in [0, 1, 2, 3, 4, 16] {
        assert!(chains().any(|c| c == count), "a chain of {count}");
    }
}

#[test]
fn cases_for_the_sharp_verdict() {
    let cases = sharp_cases(1);
    let stream = verdict_stream(&cases);
    let both = answer_verdicts(&stream).unwrap();
    let answers: Vec<_> = both.iter().map(|both| both.sharp).collect();
    assert_eq!(answers.len(), cases.len());
    assert!(cases.len() > 1_400);
    let of = |number| answers.iter().filter(move |a| a.verdict.number == number);
    for number in [0, 22, 23] {
        assert!(of(number).count() > 300, "number {number}");
        assert!((0..16).all(|task| of(number).any(|a| a.verdict.task == task)));
        let near = of(number).filter(|a| a.verdict.margin.abs() < 10);
        assert!(near.count() > 60, "number {number}");
    }
    for number in 1..=8 {
        assert!(of(number).count() > 8, "number {number}");
    }
    assert!(of(22).any(|a| a.verdict.margin == 0));
    let margins = || answers.iter().map(|a| a.verdict.margin);
    assert_eq!(margins().min(), Some(-120_000_226_500_000));
    assert_eq!(margins().max(), Some(8_000_000));
    let pairs = cases.iter().zip(&answers);
    let apart = pairs.filter(|(case, answer)| {
        assert_eq!(judged(&SHARP, case), **answer);
        answer.verdict.number == 0 && second::verdict(case).number == 20
    });
    let apart = apart.count();
    assert!(apart > 200, "{apart}");
}

#[test]
fn cases_for_the_judge() {
    let cases = journal_cases(1);
    let stream = journal_stream(&cases);
    let answers = answer_journals(&stream).unwrap();
    assert_eq!(answers.len(), cases.len());
    assert!(stream.len() < 250_000 && cases.len() > 1_500);
    for number in [0, 31, 33, 40, 41, 42, 44, 45, 46, 47] {
        let count = answers.iter().filter(|a| a.number == number).count();
        assert!(count > 25, "number {number}: {count}");
    }
    assert!(answers.iter().filter(|a| a.missed).count() > 100);
    for ((file, journal), answer) in cases.iter().zip(&answers) {
        assert_eq!(second::judge(file, journal), *answer);
    }
    assert_eq!(answer_journals(&stream[..stream.len() - 1]), None);
    let first = journal_text(&answers[..2]);
    assert_eq!(first, "0 0 0 0 0\n40 0 0 0 0\n");
}
