//! Writes recorded vectors, or checks recorded ones against this program.

use second::judge::judge_line;
use second::random::{late_miss, Random};
use second::vectors::*;
use std::process::ExitCode;

const USAGE: &str = "vectors read FILE_IN FILE_OUT     write cases and answers for the reader
vectors write FILE_IN FILE_OUT    write cases and answers for the writer
vectors verdict FILE_IN FILE_OUT  write cases and answers for both verdicts and their reports
vectors watch FILE_IN FILE_OUT    write cases and answers for the watch program
vectors journal FILE_IN FILE_OUT  write cases and answers for the judge
vectors judge FILE_IN FILE_OUT    write an input of the judge program and its line
vectors check-read FILE_IN FILE_OUT, and so check-write, check-verdict, check-watch, check-journal, check-judge
                                  answer the cases anew and compare";

const SEED: u64 = 1;

/// A kind of recorded cases: its word, the stream of its cases, and what
/// answers a stream.
struct Kind {
    word: &'static str,
    stream: fn() -> Vec<u8>,
    answers: Answers,
}

const KINDS: [Kind; 6] = [
    Kind {
        word: "read",
        stream: || read_stream(&read_cases(SEED)),
        answers: reads,
    },
    Kind {
        word: "write",
        stream: || write_stream(&write_cases(SEED)),
        answers: writes,
    },
    Kind {
        word: "verdict",
        stream: || verdict_stream(&both_cases(SEED)),
        answers: verdicts,
    },
    Kind {
        word: "watch",
        stream: || read_stream(&watch_cases(SEED)),
        answers: watches,
    },
    Kind {
        word: "journal",
        stream: || journal_stream(&journal_cases(SEED)),
        answers: journals,
    },
    Kind {
        word: "judge",
        stream: || late_miss(&mut Random::new(SEED), 4_000),
        answers: judged,
    },
];

fn main() -> ExitCode {
    let words: Vec<String> = std::env::args().skip(1).collect();
    let done = match &words[..] {
        [word, cases, answers] => done(word, cases, answers),
        _ => None,
    };
    let done = done.unwrap_or(Err(String::from(USAGE)));
    match done {
        Ok(said) => {
            println!("{said}");
            ExitCode::SUCCESS
        }
        Err(said) => {
            eprintln!("{said}");
            ExitCode::FAILURE
        }
    }
}

/// Records cases of a kind, or checks recorded ones; None for an unknown word.
fn done(word: &str, cases: &str, answers: &str) -> Option<Result<String, String>> {
    let plain = word.strip_prefix("check-").unwrap_or(word);
    let kind = KINDS.iter().find(|kind| kind.word == plain)?;
    Some(if plain == word {
        record((kind.stream)(), kind.answers, cases, answers)
    } else {
        check(kind.answers, cases, answers)
    })
}

/// The text of a stream's answers and a summary; None if it is malformed.
type Answers = fn(&[u8]) -> Option<(String, String)>;

fn reads(stream: &[u8]) -> Option<(String, String)> {
    answer_reads(stream).map(|found| (text(&found), summary(&found)))
}

fn writes(stream: &[u8]) -> Option<(String, String)> {
    answer_writes(stream).map(|found| (text(&found), summary(&found)))
}

fn verdicts(stream: &[u8]) -> Option<(String, String)> {
    let found = answer_verdicts(stream)?;
    let of =
        |pick: fn(&Both) -> Judged| verdict_summary(&found.iter().map(pick).collect::<Vec<_>>());
    let said = format!("{}; sharp: {}", of(|both| both.old), of(|both| both.sharp));
    Some((verdict_text(&found), said))
}

fn watches(stream: &[u8]) -> Option<(String, String)> {
    let found = answer_watches(stream)?;
    let lines: usize = found.iter().map(|answer| answer.lines).sum();
    let said = format!("{} cases; {lines} lines", found.len());
    Some((shown_text(&found), said))
}

fn journals(stream: &[u8]) -> Option<(String, String)> {
    answer_journals(stream).map(|found| (journal_text(&found), journal_summary(&found)))
}

fn judged(input: &[u8]) -> Option<(String, String)> {
    let line = judge_line(input);
    let said = format!("the judge program says {}", line.trim_end());
    Some((line, said))
}

fn record(stream: Vec<u8>, answer: Answers, cases: &str, answers: &str) -> Result<String, String> {
    let (got, said) = answer(&stream).ok_or("the cases are malformed")?;
    std::fs::write(cases, &stream).map_err(|e| format!("{cases}: {e}"))?;
    std::fs::write(answers, &got).map_err(|e| format!("{answers}: {e}"))?;
    Ok(format!("{} bytes, {said}", stream.len()))
}

fn check(answer: Answers, cases: &str, answers: &str) -> Result<String, String> {
    let stream = std::fs::read(cases).map_err(|e| format!("{cases}: {e}"))?;
    let expected = std::fs::read_to_string(answers).map_err(|e| format!("{answers}: {e}"))?;
    let (got, said) = answer(&stream).ok_or("the cases are malformed")?;
    if let Some(line) = got.lines().zip(expected.lines()).position(|(a, b)| a != b) {
        return Err(format!("case {line} differs"));
    }
    if got != expected {
        return Err(String::from("the number of cases differs"));
    }
    Ok(format!("equal: {said}"))
}

fn summary(found: &[Expected]) -> String {
    let mut said = format!("{} cases; number:count/places", found.len());
    for number in 0..=10 {
        let with = found.iter().filter(|answer| answer.number == number);
        let mut places: Vec<usize> = with.map(|answer| answer.place).collect();
        let count = places.len();
        places.sort_unstable();
        places.dedup();
        if count > 0 {
            said += &format!(" {number}:{count}/{}", places.len());
        }
    }
    said
}

fn verdict_summary(found: &[Judged]) -> String {
    let of = |number: u8| {
        let with = found.iter().map(|answer| answer.verdict);
        with.filter(move |verdict| verdict.number == number)
    };
    let mut said = format!("{} cases; number:count", found.len());
    for number in (0..=23).filter(|number| of(*number).count() > 0) {
        said += &format!(" {number}:{}", of(number).count());
    }
    for number in [0, 20, 22, 23] {
        if of(number).count() == 0 {
            continue;
        }
        let near = of(number).filter(|verdict| verdict.margin.abs() < 10);
        said += &format!(
            "; margins of {number} within 9 of 0: {}, by task",
            near.count()
        );
        for task in 0..16 {
            let here = of(number).filter(|verdict| verdict.task == task);
            said += &format!(" {}", here.count());
        }
    }
    said
}
