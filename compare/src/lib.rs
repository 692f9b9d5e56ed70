//! The C face from Rust, and comparisons of it with the second program.

pub mod comparison;
pub mod face;
pub mod journals;
pub mod judging;
pub mod opening;
pub mod quickly;
pub mod reading;
pub mod reporting;
pub mod running;
pub mod sharply;
pub mod telling;
pub mod ticking;
pub mod writing;

/// Every comparison; a new one is a line here.
pub const COMPARISONS: [comparison::Comparison; 11] = [
    reading::READING,
    writing::WRITING,
    judging::JUDGING,
    quickly::QUICKLY,
    reporting::REPORTING,
    sharply::SHARPLY,
    sharply::SHARP_REPORTING,
    opening::OPENING,
    ticking::TICKING,
    running::RUNNING,
    journals::JOURNALS,
];
