//! The stream of cases for both verdicts and their reports, and the answers.

use super::{put_bytes, take, take_bytes};
use crate::report::report_by;
use crate::sharp::SHARP;
use crate::sum::fnv;
use crate::verdict::{Verdict, Way, OLD};

/// One line of an answer: the verdict, and the report's length and checksum.
#[derive(Clone, Copy, PartialEq, Eq, Debug)]
pub struct Judged {
    pub verdict: Verdict,
    pub length: usize,
    pub sum: u32,
}

/// A file's line by a way of judging.
pub fn judged(way: &Way, bytes: &[u8]) -> Judged {
    let text = report_by(way, bytes);
    Judged {
        verdict: way.verdict(bytes),
        length: text.len(),
        sum: fnv(&text),
    }
}

/// The answer to a case: of the old verdict and of the sharp one.
#[derive(Clone, Copy, PartialEq, Eq, Debug)]
pub struct Both {
    pub old: Judged,
    pub sharp: Judged,
}

/// The stream of files: each as its length and bytes, or as length 0 and the
/// bytes that differ from the file before where that is shorter. The file
/// before the first is empty.
pub fn verdict_stream(files: &[Vec<u8>]) -> Vec<u8> {
    let mut out = Vec::new();
    let mut before: &[u8] = &[];
    for file in files {
        match changes(before, file) {
            Some(list) if 3 * list.len() < file.len() || file.is_empty() => {
                put_bytes(&mut out, &[]);
                out.push(list.len() as u8);
                for (at, byte) in list {
                    out.extend(at.to_le_bytes());
                    out.push(byte);
                }
            }
            _ => {
                assert!(!file.is_empty(), "only the first file may be empty");
                put_bytes(&mut out, file);
                out.push(0);
            }
        }
        before = file;
    }
    out
}

/// The bytes of a file that differ from one as long, at most 255 of them.
fn changes(before: &[u8], file: &[u8]) -> Option<Vec<(u16, u8)>> {
    if before.len() != file.len() {
        return None;
    }
    let pairs = before.iter().zip(file).enumerate();
    let differ = pairs.filter(|(_, (was, is))| was != is);
    let list: Vec<_> = differ.map(|(at, (_, is))| (at as u16, *is)).collect();
    (list.len() < 256).then_some(list)
}

/// Answers a stream of cases; None if it is malformed.
pub fn answer_verdicts(stream: &[u8]) -> Option<Vec<Both>> {
    let mut rest = stream;
    let mut file = Vec::new();
    let mut answers = Vec::new();
    while !rest.is_empty() {
        let bytes = take_bytes(&mut rest)?;
        if !bytes.is_empty() {
            file = bytes.to_vec();
        }
        let [count] = take(&mut rest)?;
        for _ in 0..count {
            let at = usize::from(u16::from_le_bytes(take(&mut rest)?));
            let [byte] = take(&mut rest)?;
            *file.get_mut(at)? = byte;
        }
        answers.push(Both {
            old: judged(&OLD, &file),
            sharp: judged(&SHARP, &file),
        });
    }
    Some(answers)
}

/// The text of answers: NUMBER PLACE TASK MARGIN COUNT CHAIN LENGTH SUM in
/// decimal, two lines a case, the old verdict's first.
pub fn verdict_text(answers: &[Both]) -> String {
    let each = answers.iter().flat_map(|both| [both.old, both.sharp]);
    let lines = each.map(|answer| {
        let Verdict {
            number,
            place,
            task,
            margin,
            chain,
        } = answer.verdict;
        let (count, places) = (chain.count, fnv(&chain.vertices));
        let (length, sum) = (answer.length, answer.sum);
        format!("{number} {place} {task} {margin} {count} {places} {length} {sum}\n")
    });
    lines.collect()
}
