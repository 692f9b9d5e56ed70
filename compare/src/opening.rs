//! Opening: every byte of the answer and of the state.

use crate::comparison::{hex, same, Comparison, Difference};
use crate::face;
use crate::reading;
use second::random::*;

pub const OPENING: Comparison = Comparison {
    name: "open",
    one,
    share: 2,
    must_meet: &[0, 1, 2, 3, 4, 5, 6, 7, 8],
};

fn one(r: &mut Random) -> Result<u8, Difference> {
    let bytes = reading::input(r);
    let clock = r.number();
    let theirs = face::OpenAnswer::from(&second::flat::open(&bytes, clock));
    let ours = face::open(&bytes, clock);
    same(theirs.number, &ours, &theirs, || {
        format!("{}\nclock {clock}", hex(&bytes))
    })
}
