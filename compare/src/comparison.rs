//! What a comparison is: from random numbers it makes an input, gives it to both sides and says where they differ.

use second::random::Random;

/// The numbers that an answer may have lie below this.
pub const NUMBERS: usize = 64;

pub struct Comparison {
    pub name: &'static str,
    /// Makes one input and compares; the number that both sides answered, or how they differ.
    pub one: fn(&mut Random) -> Result<u8, Difference>,
    /// It gets one input in so many of those that are asked for.
    pub share: u64,
    /// The numbers that a long run has to meet, each at least once.
    pub must_meet: &'static [u8],
}

/// An input on which the sides differ, and what each said, as text.
#[derive(Debug)]
pub struct Difference {
    pub input: String,
    pub ours: String,
    pub theirs: String,
}

/// Equal answers give the number; the text is made only where they differ.
pub fn same<T: PartialEq + std::fmt::Debug>(
    number: u8,
    ours: &T,
    theirs: &T,
    input: impl FnOnce() -> String,
) -> Result<u8, Difference> {
    if ours == theirs {
        return Ok(number);
    }
    Err(Difference {
        input: input(),
        ours: format!("{ours:?}"),
        theirs: format!("{theirs:?}"),
    })
}

/// Bytes as pairs of hexadecimal digits, as document 01 writes marks.
pub fn hex(bytes: &[u8]) -> String {
    let pairs: Vec<String> = bytes.iter().map(|b| format!("{b:02X}")).collect();
    pairs.join(" ")
}
