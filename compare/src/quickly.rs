//! The quick answer: 1 exactly if the full verdict's number is 0, on both sides.

use crate::comparison::{hex, same, Comparison, Difference};
use crate::face;
use crate::judging;
use second::random::Random;

pub const QUICKLY: Comparison = Comparison {
    name: "quick",
    one,
    share: 1,
    must_meet: &[0, 1],
};

/// The answer stands where other comparisons have a number.
fn one(r: &mut Random) -> Result<u8, Difference> {
    let bytes = judging::input(r);
    let theirs = [second::quick(&bytes), second::verdict(&bytes).number == 0].map(u8::from);
    let ours = [
        face::quick(&bytes),
        u8::from(face::verdict(&bytes).number == 0),
    ];
    same(theirs[0], &ours, &[theirs[1]; 2], || hex(&bytes))
}
