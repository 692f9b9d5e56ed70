//! The plain C version (plain.h) from Rust. Its table, its state and the answers to a verdict and a tick are laid out as the C face's.

use compare::face;

#[repr(C)]
#[derive(Clone, Copy, PartialEq, Eq, Debug)]
pub struct Found {
    pub number: u8,
    pub task: u8,
    pub place: usize,
}

/// The functions themselves, for measurements.
pub mod entry {
    use super::*;

    extern "C" {
        pub fn plain_read(bytes: *const u8, count: usize, table: *mut face::Table) -> Found;
        pub fn plain_write(table: *const face::Table, buffer: *mut u8, room: usize) -> Found;
        pub fn plain_verdict(bytes: *const u8, count: usize) -> face::VerdictAnswer;
        pub fn plain_sharp(bytes: *const u8, count: usize) -> face::VerdictAnswer;
        pub fn plain_report(bytes: *const u8, count: usize, buffer: *mut u8, room: usize) -> usize;
        pub fn plain_sharp_report(
            bytes: *const u8,
            count: usize,
            buffer: *mut u8,
            room: usize,
        ) -> usize;
        pub fn plain_open(
            bytes: *const u8,
            count: usize,
            clock: u32,
            state: *mut face::State,
        ) -> Found;
        pub fn plain_tick(
            bytes: *const u8,
            count: usize,
            state: *mut face::State,
            releases: u16,
        ) -> face::TickAnswer;
    }
}

// Each call is safe: the pointers and counts are those of slices and references, and the C code keeps within them.

pub fn read(bytes: &[u8], table: &mut face::Table) -> Found {
    unsafe { entry::plain_read(bytes.as_ptr(), bytes.len(), table) }
}

pub fn write(table: &face::Table, buffer: &mut [u8]) -> Found {
    unsafe { entry::plain_write(table, buffer.as_mut_ptr(), buffer.len()) }
}

pub fn verdict(bytes: &[u8]) -> face::VerdictAnswer {
    unsafe { entry::plain_verdict(bytes.as_ptr(), bytes.len()) }
}

pub fn sharp(bytes: &[u8]) -> face::VerdictAnswer {
    unsafe { entry::plain_sharp(bytes.as_ptr(), bytes.len()) }
}

pub fn report(bytes: &[u8], buffer: &mut [u8]) -> usize {
    let (to, room) = (buffer.as_mut_ptr(), buffer.len());
    unsafe { entry::plain_report(bytes.as_ptr(), bytes.len(), to, room) }
}

pub fn sharp_report(bytes: &[u8], buffer: &mut [u8]) -> usize {
    let (to, room) = (buffer.as_mut_ptr(), buffer.len());
    unsafe { entry::plain_sharp_report(bytes.as_ptr(), bytes.len(), to, room) }
}

pub fn open(bytes: &[u8], clock: u32, state: &mut face::State) -> Found {
    unsafe { entry::plain_open(bytes.as_ptr(), bytes.len(), clock, state) }
}

pub fn tick(bytes: &[u8], state: &mut face::State, releases: u16) -> face::TickAnswer {
    unsafe { entry::plain_tick(bytes.as_ptr(), bytes.len(), state, releases) }
}

/// A table to read into.
pub fn no_table() -> face::Table {
    face::Table::from(&second::Table::ZERO)
}
