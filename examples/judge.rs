//! judge FILE CLOCK TICKS: prints the report on a table file, then runs it from that clock on, each task released as soon as it may be.

use std::io::Write;
use std::process::ExitCode;

/// What this needs of include/milltundra.h.
mod milltundra {
    #[repr(C)]
    pub struct TaskState {
        pub wait: u32,
        pub deadline: [u32; 4],
        pub live: [u8; 4],
    }

    #[repr(C)]
    pub struct State {
        pub work: [u64; 64],
        pub clock: u32,
        pub stopped: u8,
        pub at: u8,
        pub pad: [u8; 2],
        pub tasks: [TaskState; 16],
        pub remaining: [u32; 1024],
    }

    #[repr(C)]
    pub struct OpenAnswer {
        pub place: u64,
        pub number: u8,
        pub task: u8,
        pub pad: [u8; 6],
        pub state: State,
    }

    #[repr(C)]
    pub struct Triple {
        pub task: u8,
        pub age: u8,
        pub vertex: u8,
    }

    #[repr(C)]
    pub struct TickAnswer {
        pub place: u64,
        pub number: u8,
        pub task: u8,
        pub finished: u16,
        pub ran: [Triple; 8],
        pub pad: [u8; 4],
    }

    pub const OK: u8 = 0;
    pub const NONE: u8 = 255;
    pub const MAX_REPORT: usize = 1366;

    // The sizes that the header asserts.
    const _: () = assert!(size_of::<State>() == 5000);
    const _: () = assert!(size_of::<OpenAnswer>() == 5016);
    const _: () = assert!(size_of::<TickAnswer>() == 40);

    #[link(name = "panel", kind = "static")]
    extern "C" {
        fn mt_report(bytes: *const u8, count: usize, buffer: *mut u8, room: usize) -> u64;
        fn mt_open(bytes: *const u8, count: usize, clock: u32) -> OpenAnswer;
        fn mt_tick_in_place(
            state: *mut State,
            bytes: *const u8,
            count: usize,
            releases: u16,
        ) -> TickAnswer;
    }

    // Each call is safe: the pointers and counts are those of slices, and any bytes and states get an answer.
    pub fn report(bytes: &[u8], buffer: &mut [u8; MAX_REPORT]) -> usize {
        let room = buffer.len();
        unsafe { mt_report(bytes.as_ptr(), bytes.len(), buffer.as_mut_ptr(), room) as usize }
    }

    pub fn open(bytes: &[u8], clock: u32) -> OpenAnswer {
        unsafe { mt_open(bytes.as_ptr(), bytes.len(), clock) }
    }

    pub fn tick(state: &mut State, bytes: &[u8], releases: u16) -> TickAnswer {
        unsafe { mt_tick_in_place(state, bytes.as_ptr(), bytes.len(), releases) }
    }
}

use milltundra::*;

/// The set of tasks that need not wait; the file's fourth byte is its task count.
fn ready(file: &[u8], state: &State) -> u16 {
    let tasks = usize::from(file[3]);
    let ready = (0..tasks).filter(|i| state.tasks[*i].wait == 0);
    ready.fold(0, |set, i| set | 1 << i)
}

fn set_text(set: u16) -> String {
    let members = (0..16).filter(|i| set >> i & 1 == 1);
    members.map(|i| format!(" {i}")).collect()
}

fn print_tick(clock: u32, releases: u16, ticked: &TickAnswer) {
    let ran = ticked.ran.iter().take_while(|place| place.task != NONE);
    let words = ran.map(|t| format!(" {}.{}.{}", t.task, t.age, t.vertex));
    let ran: String = words.collect();
    let (named, finished) = (set_text(releases), set_text(ticked.finished));
    println!("clock {clock} release{named} run{ran} finished{finished}");
}

/// Runs so many ticks, or until one is not answered 0.
fn run(file: &[u8], state: &mut State, ticks: u64) {
    for _ in 0..ticks {
        let (clock, releases) = (state.clock, ready(file, state));
        let ticked = tick(state, file, releases);
        print_tick(clock, releases, &ticked);
        if ticked.number != OK {
            println!("number {} task {}", ticked.number, ticked.task);
            return;
        }
    }
}

fn main() -> ExitCode {
    let words: Vec<String> = std::env::args().collect();
    let [_, path, clock, ticks] = words.as_slice() else {
        eprintln!("judge FILE CLOCK TICKS");
        return ExitCode::from(2);
    };
    let (Ok(clock), Ok(ticks)) = (clock.parse(), ticks.parse()) else {
        eprintln!("judge: CLOCK and TICKS are numbers");
        return ExitCode::from(2);
    };
    let file = match std::fs::read(path) {
        Ok(file) => file,
        Err(error) => {
            eprintln!("{path}: {error}");
            return ExitCode::FAILURE;
        }
    };
    let mut text = [0; MAX_REPORT];
    let length = report(&file, &mut text);
    if std::io::stdout().write_all(&text[..length]).is_err() {
        return ExitCode::FAILURE;
    }
    let mut opened = open(&file, clock);
    if opened.number != OK {
        return ExitCode::FAILURE;
    }
    run(&file, &mut opened.state, ticks);
    ExitCode::SUCCESS
}
