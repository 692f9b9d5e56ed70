//! A second program for job tables: reader, writer, verdicts, reports, tick
//! machine and judge of journals, written from documents 01 and 02 alone, to be
//! compared with the first.

pub mod beside;
pub mod chain;
pub mod examples;
pub mod explore;
pub mod flat;
pub mod graph;
pub mod judge;
pub mod legal;
pub mod machine;
pub mod quick;
pub mod random;
pub mod reader;
pub mod report;
pub mod sharp;
pub mod sum;
pub mod table;
pub mod vectors;
pub mod verdict;
pub mod watch;
pub mod writer;

pub use judge::{judge, Ruling};
pub use machine::{open, tick, tick_in_place, Opened, State, Ticked};
pub use quick::quick;
pub use reader::{read, read_at, Core, Read};
pub use report::{report, sharp_report};
pub use sharp::sharp;
pub use table::{Table, Task};
pub use verdict::{verdict, Verdict};
pub use watch::watch;
pub use writer::write;
