//! The sharp verdict and its report, compared as the old ones are, on tables near its own edge, with chains about as long as D, and
//! on those that the two verdicts tell apart.

use crate::comparison::{Comparison, Difference};
use crate::face;
use crate::{judging, reporting};
use second::random::*;
use second::table::MOST_TICKS;

/// Reading's numbers, those of the sharp verdict and 0.
const NUMBERS: &[u8] = &[0, 1, 2, 3, 4, 5, 6, 7, 8, 22, 23];

pub const SHARPLY: Comparison = Comparison {
    name: "sharp",
    one: verdict,
    share: 2,
    must_meet: NUMBERS,
};

pub const SHARP_REPORTING: Comparison = Comparison {
    name: "sharp_report",
    one: report,
    share: 4,
    must_meet: NUMBERS,
};

fn verdict(r: &mut Random) -> Result<u8, Difference> {
    judging::both(&input(r), second::sharp, face::sharp)
}

fn report(r: &mut Random) -> Result<u8, Difference> {
    let bytes = input(r);
    let number = second::sharp(&bytes).number;
    let text = second::sharp_report(&bytes);
    reporting::both(r, number, &bytes, &text, face::sharp_report)
}

/// As for the verdict, near the sharp edge; and a short job beside a long one.
pub fn input(r: &mut Random) -> Vec<u8> {
    if !r.one_in(8) {
        return judging::input_near(r, near_sharp_edge);
    }
    let scale = match r.below(3) {
        0 => r.range(2, 8),
        1 => r.range(8, 2_000),
        _ => r.range(2_000, MOST_TICKS / 2),
    };
    file(&short_beside_long(r, scale))
}
