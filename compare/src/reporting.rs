//! The report: the text's length and every byte of the buffer.

use crate::comparison::{hex, same, Comparison, Difference};
use crate::face;
use crate::judging::input;
use second::random::*;

pub const REPORTING: Comparison = Comparison {
    name: "report",
    one,
    share: 4,
    must_meet: &[0, 1, 2, 3, 4, 5, 6, 7, 8, 20],
};

/// What a side says: the text's length, and the buffer afterwards.
#[derive(PartialEq, Eq, Debug)]
struct Said {
    length: u64,
    buffer: Vec<u8>,
}

fn one(r: &mut Random) -> Result<u8, Difference> {
    let bytes = input(r);
    let number = second::verdict(&bytes).number;
    let text = second::report(&bytes);
    both(r, number, &bytes, &text, face::report)
}

/// A report on a file from both sides; the second program's is handed over, with its verdict's number.
pub fn both(
    r: &mut Random,
    number: u8,
    bytes: &[u8],
    text: &[u8],
    ours: fn(&[u8], &mut [u8]) -> u64,
) -> Result<u8, Difference> {
    let before = buffer(r, text.len());
    let mut after = before.clone();
    let ours = Said {
        length: ours(bytes, &mut after),
        buffer: after,
    };
    let theirs = theirs(text, before.clone());
    same(number, &ours, &theirs, || {
        format!("{}\nbuffer {}", hex(bytes), hex(&before))
    })
}

/// The text at the front if it fits, the rest as it was.
fn theirs(text: &[u8], mut buffer: Vec<u8>) -> Said {
    if let Some(front) = buffer.get_mut(..text.len()) {
        front.copy_from_slice(text);
    }
    Said {
        length: text.len() as u64,
        buffer,
    }
}

/// A buffer about as long as the text, shorter, longer, empty or one that holds every report, with any bytes in it.
fn buffer(r: &mut Random, text: usize) -> Vec<u8> {
    let length = match r.below(8) {
        0 | 1 => text,
        2 => text - 1,
        3 => r.below(text),
        4 => text + r.below(8),
        5 => r.below(2 * text),
        6 => r.pick(&[0, 1, 2048, 4096]),
        _ => face::MAX_REPORT,
    };
    (0..length).map(|_| r.byte()).collect()
}
