//! The functions and structs of include/milltundra.h, with safe functions over them. Nothing checks these
//! declarations against the library but the comparison itself; their sizes are the header's.

use second::flat::{FlatOpened, FlatTicked};
pub use second::flat::{FlatState as State, FlatTask as TaskState};
use second::machine::{Answer, Vertex};
use second::table::{ENTRIES, ROW};

/// `struct mt_task`
#[repr(C)]
#[derive(Clone, Copy, Debug)]
pub struct Task {
    pub v: u8,
    pub pad: [u8; 3],
    pub d: u32,
    pub t: u32,
    pub succ: [u16; ENTRIES],
}

/// `struct mt_table`
#[repr(C)]
#[derive(Clone, Copy, Debug)]
pub struct Table {
    pub m: u8,
    pub n: u8,
    pub pad: [u8; 2],
    pub tasks: [Task; ENTRIES],
    pub costs: [u32; ROW],
}

/// `struct mt_read_answer`
#[repr(C)]
#[derive(Clone, Copy, Debug)]
pub struct ReadAnswer {
    pub place: u64,
    pub number: u8,
    pub pad: [u8; 3],
    pub table: Table,
}

/// `struct mt_write_answer`
#[repr(C)]
#[derive(Clone, Copy, Debug)]
pub struct WriteAnswer {
    pub place: u64,
    pub number: u8,
    pub pad: [u8; 7],
}

/// `struct mt_verdict_answer`
#[repr(C)]
#[derive(Clone, Copy, Debug)]
pub struct VerdictAnswer {
    pub place: u64,
    pub margin: i64,
    pub number: u8,
    pub task: u8,
    pub count: u8,
    pub chain: [u8; ENTRIES],
    pub pad: [u8; 5],
}

/// `struct mt_open_answer`
#[repr(C)]
#[derive(Clone, Copy, Debug)]
pub struct OpenAnswer {
    pub place: u64,
    pub number: u8,
    pub task: u8,
    pub pad: [u8; 6],
    pub state: State,
}

/// `struct mt_triple`
#[repr(C)]
#[derive(Clone, Copy, Debug)]
pub struct Triple {
    pub task: u8,
    pub age: u8,
    pub vertex: u8,
}

/// `struct mt_tick_answer`
#[repr(C)]
#[derive(Clone, Copy, Debug)]
pub struct TickAnswer {
    pub place: u64,
    pub number: u8,
    pub task: u8,
    pub finished: u16,
    pub ran: [Triple; 8],
    pub pad: [u8; 4],
}

/// `struct mt_ticked`
#[repr(C)]
#[derive(Clone, Copy, Debug)]
pub struct Ticked {
    pub answer: TickAnswer,
    pub state: State,
}

/// `struct mt_ruling`
#[repr(C)]
#[derive(Clone, Copy, Debug)]
pub struct Ruling {
    pub place: u64,
    pub row: u64,
    pub rows: u64,
    pub number: u8,
    pub missed: u8,
    pub pad: [u8; 6],
}

/// The header's size of a struct, of which its fields leave no byte over.
macro_rules! without_padding {
    ($name:ident $size:literal: $($field:ident)*) => {
        const _: () = {
            const fn size<T>(_: fn(&$name) -> &T) -> usize {
                size_of::<T>()
            }
            assert!(size_of::<$name>() == $size);
            assert!(0 $(+ size(|whole| &whole.$field))* == $size);
        };
    };
}

without_padding!(TaskState 24: wait deadline live);
without_padding!(State 5000: work clock stopped at pad tasks remaining);

/// The same; and two are equal if all their bytes are.
macro_rules! compared_as_bytes {
    ($($name:ident $size:literal: $($field:ident)*;)*) => { $(
        without_padding!($name $size: $($field)*);
        impl PartialEq for $name {
            fn eq(&self, other: &$name) -> bool {
                // Safe: every byte of both is one of a field, as asserted above, so that none is without a value.
                let [one, other]: [&[u8; $size]; 2] =
                    unsafe { [&*std::ptr::from_ref(self).cast(), &*std::ptr::from_ref(other).cast()] };
                one == other
            }
        }
        impl Eq for $name {}
    )* };
}

compared_as_bytes! {
    Task 44: v pad d t succ;
    Table 1732: m n pad tasks costs;
    ReadAnswer 1744: place number pad table;
    WriteAnswer 16: place number pad;
    VerdictAnswer 40: place margin number task count chain pad;
    OpenAnswer 5016: place number task pad state;
    Triple 3: task age vertex;
    TickAnswer 40: place number task finished ran pad;
    Ticked 5040: answer state;
    Ruling 32: place row rows number missed pad;
}

/// `MT_MAX_REPORT`: a buffer of this many bytes holds every report, the sharp ones too.
pub const MAX_REPORT: usize = 1366;

/// The functions themselves, for measurements.
pub mod entry {
    use super::{OpenAnswer, ReadAnswer, Ruling, State, Table};
    use super::{TickAnswer, Ticked, VerdictAnswer, WriteAnswer};

    extern "C" {
        pub fn mt_read(bytes: *const u8, count: usize) -> ReadAnswer;
        pub fn mt_write(table: Table, buffer: *mut u8, count: usize) -> WriteAnswer;
        pub fn mt_verdict(bytes: *const u8, count: usize) -> VerdictAnswer;
        pub fn mt_quick(bytes: *const u8, count: usize) -> u8;
        pub fn mt_report(bytes: *const u8, count: usize, buffer: *mut u8, room: usize) -> u64;
        pub fn mt_sharp(bytes: *const u8, count: usize) -> VerdictAnswer;
        pub fn mt_sharp_report(bytes: *const u8, count: usize, buffer: *mut u8, room: usize)
            -> u64;
        pub fn mt_open(bytes: *const u8, count: usize, clock: u32) -> OpenAnswer;
        pub fn mt_tick(bytes: *const u8, count: usize, state: State, releases: u16) -> Ticked;
        pub fn mt_tick_in_place(
            state: *mut State,
            bytes: *const u8,
            count: usize,
            releases: u16,
        ) -> TickAnswer;
        pub fn mt_judge(
            bytes: *const u8,
            count: usize,
            journal: *const u8,
            length: usize,
        ) -> Ruling;
    }
}

/// A slice's pointer; null for one without bytes, as the header allows.
fn start(bytes: &[u8]) -> *const u8 {
    match bytes {
        [] => std::ptr::null(),
        some => some.as_ptr(),
    }
}

/// The same of a slice that is written to.
fn start_mut(bytes: &mut [u8]) -> *mut u8 {
    match bytes {
        [] => std::ptr::null_mut(),
        some => some.as_mut_ptr(),
    }
}

pub fn read(bytes: &[u8]) -> ReadAnswer {
    // Safe: the pointer and the count are those of a slice, and any bytes get an answer.
    unsafe { entry::mt_read(start(bytes), bytes.len()) }
}

pub fn write(table: Table, buffer: &mut [u8]) -> WriteAnswer {
    // Safe: the pointer and the count are those of a slice that nobody else holds, and any table gets an answer.
    unsafe { entry::mt_write(table, start_mut(buffer), buffer.len()) }
}

pub fn verdict(bytes: &[u8]) -> VerdictAnswer {
    // Safe: as for `read`.
    unsafe { entry::mt_verdict(start(bytes), bytes.len()) }
}

pub fn quick(bytes: &[u8]) -> u8 {
    // Safe: as for `read`.
    unsafe { entry::mt_quick(start(bytes), bytes.len()) }
}

pub fn sharp(bytes: &[u8]) -> VerdictAnswer {
    // Safe: as for `read`.
    unsafe { entry::mt_sharp(start(bytes), bytes.len()) }
}

pub fn report(bytes: &[u8], buffer: &mut [u8]) -> u64 {
    put_text(entry::mt_report, bytes, buffer)
}

pub fn sharp_report(bytes: &[u8], buffer: &mut [u8]) -> u64 {
    put_text(entry::mt_sharp_report, bytes, buffer)
}

/// A function that writes a text on a file.
type Texter = unsafe extern "C" fn(*const u8, usize, *mut u8, usize) -> u64;

fn put_text(texter: Texter, bytes: &[u8], buffer: &mut [u8]) -> u64 {
    let (to, room) = (start_mut(buffer), buffer.len());
    // Safe: both pointers and counts are those of slices, the second one's held by nobody else, and any bytes get an answer.
    unsafe { texter(start(bytes), bytes.len(), to, room) }
}

pub fn open(bytes: &[u8], clock: u32) -> OpenAnswer {
    // Safe: as for `read`.
    unsafe { entry::mt_open(start(bytes), bytes.len(), clock) }
}

pub fn tick(bytes: &[u8], state: State, releases: u16) -> Ticked {
    // Safe: as for `read`, and any state gets an answer.
    unsafe { entry::mt_tick(start(bytes), bytes.len(), state, releases) }
}

pub fn tick_in_place(state: &mut State, bytes: &[u8], releases: u16) -> TickAnswer {
    // Safe: as for `tick`, and nobody else holds the state.
    unsafe { entry::mt_tick_in_place(state, start(bytes), bytes.len(), releases) }
}

pub fn judge(bytes: &[u8], journal: &[u8]) -> Ruling {
    // Safe: both pointers and counts are those of slices, and any bytes get an answer.
    unsafe { entry::mt_judge(start(bytes), bytes.len(), start(journal), journal.len()) }
}

impl From<&second::Table> for Table {
    fn from(table: &second::Table) -> Table {
        Table {
            m: table.m,
            n: table.n,
            pad: [0; 2],
            tasks: table.tasks.map(|task| Task {
                v: task.v,
                pad: [0; 3],
                d: task.deadline,
                t: task.period,
                succ: task.succ,
            }),
            costs: table.costs,
        }
    }
}

impl From<&second::Read> for ReadAnswer {
    fn from(found: &second::Read) -> ReadAnswer {
        ReadAnswer {
            place: found.place as u64,
            number: found.number,
            pad: [0; 3],
            table: Table::from(&found.table),
        }
    }
}

impl WriteAnswer {
    /// From what the second program's writer says.
    pub fn of((number, place): (u8, usize)) -> WriteAnswer {
        WriteAnswer {
            place: place as u64,
            number,
            pad: [0; 7],
        }
    }
}

impl From<&second::Verdict> for VerdictAnswer {
    fn from(verdict: &second::Verdict) -> VerdictAnswer {
        VerdictAnswer {
            place: verdict.place as u64,
            margin: verdict.margin,
            number: verdict.number,
            task: verdict.task,
            count: verdict.chain.count,
            chain: verdict.chain.vertices,
            pad: [0; 5],
        }
    }
}

impl From<&FlatOpened> for OpenAnswer {
    fn from(opened: &FlatOpened) -> OpenAnswer {
        OpenAnswer {
            place: opened.place as u64,
            number: opened.number,
            task: opened.task,
            pad: [0; 6],
            state: opened.state,
        }
    }
}

impl From<Vertex> for Triple {
    fn from((task, age, vertex): Vertex) -> Triple {
        Triple { task, age, vertex }
    }
}

impl From<&Answer> for TickAnswer {
    fn from(answer: &Answer) -> TickAnswer {
        TickAnswer {
            place: answer.place as u64,
            number: answer.number,
            task: answer.task,
            finished: answer.finished,
            ran: answer.ran.map(Triple::from),
            pad: [0; 4],
        }
    }
}

impl From<&FlatTicked> for Ticked {
    fn from(ticked: &FlatTicked) -> Ticked {
        Ticked {
            answer: TickAnswer::from(&ticked.answer),
            state: ticked.state,
        }
    }
}

impl From<&second::judge::Ruling> for Ruling {
    fn from(ruling: &second::judge::Ruling) -> Ruling {
        Ruling {
            place: ruling.place as u64,
            row: ruling.row as u64,
            rows: ruling.rows as u64,
            number: ruling.number,
            missed: u8::from(ruling.missed),
            pad: [0; 6],
        }
    }
}
