//! The stack that each function of the C face takes, in bytes, measured on the built code: the function runs on a stack painted
//! with a pattern, and the lowest byte that changed is looked up; the most over many inputs, accepted and refused. The return
//! address counts; what its caller puts down for it (a table or a state by value) is said beside it. Plain C's functions, which get
//! tables and states by pointer, are measured on the same inputs.

use bench::plain;
use compare::{face, judging, reading, sharply, ticking, writing};
use second::random::{busy_table, file, journal, largest_table, Random};
use second::table::LARGEST;
use std::mem::size_of;

const SPACE: usize = 1 << 17;
const PAINT: u8 = 0xC7;
const INPUTS: u64 = 5_000;

// on_stack(top, entry, words): calls entry with six words in registers and the stack at top.
std::arch::global_asm!(
    ".globl on_stack",
    "on_stack:",
    "push rbp",
    "push rbx",
    "mov rbp, rsp",
    "mov rax, rsi",
    "mov rbx, rdx",
    "mov rsp, rdi",
    "mov rdi, [rbx]",
    "mov rsi, [rbx + 8]",
    "mov rdx, [rbx + 16]",
    "mov rcx, [rbx + 24]",
    "mov r8, [rbx + 32]",
    "mov r9, [rbx + 40]",
    "call rax",
    "mov rsp, rbp",
    "pop rbx",
    "pop rbp",
    "ret",
);

extern "C" {
    fn on_stack(top: *mut u8, entry: *const (), words: *const [usize; 6]);
}

#[repr(C, align(16))]
struct Stack<T> {
    below: [u8; SPACE],
    /// What the caller puts down for the function.
    put: T,
}

/// Runs a function with these words in registers and this on the stack; gives the bytes that it took below.
fn taken<T>(entry: *const (), words: [usize; 6], put: T) -> usize {
    let mut stack = Box::new(Stack {
        below: [PAINT; SPACE],
        put,
    });
    let top: *mut u8 = std::ptr::from_mut(&mut stack.put).cast();
    assert_eq!(top as usize % 16, 0);
    // Safe: `entry` is a function of the C face, and `words` and `put` are its arguments as the x86-64 System V ABI passes them.
    unsafe { on_stack(top, entry, &words) };
    let untouched = stack.below.iter().take_while(|byte| **byte == PAINT);
    SPACE - untouched.count()
}

/// Bytes of stack: ours, and plain C's.
type Both = [usize; 2];

/// Room for an answer, which goes to memory that the caller names first, as every struct above sixteen bytes. (Writing's answer has
/// sixteen, and goes in registers.)
fn room<T>() -> (Box<std::mem::MaybeUninit<T>>, usize) {
    let mut answer = Box::new(std::mem::MaybeUninit::<T>::uninit());
    let to = answer.as_mut_ptr() as usize;
    (answer, to)
}

fn read(r: &mut Random, k: u64) -> Both {
    let bytes = match k {
        0 => file(&largest_table(r)),
        _ => reading::input(r),
    };
    let (from, count) = (bytes.as_ptr() as usize, bytes.len());
    let (_answer, to) = room::<face::ReadAnswer>();
    let (_table, table) = room::<face::Table>();
    let ours = [to, from, count, 0, 0, 0];
    let theirs = [from, count, table, 0, 0, 0];
    [
        taken(face::entry::mt_read as *const (), ours, ()),
        taken(plain::entry::plain_read as *const (), theirs, ()),
    ]
}

fn write(r: &mut Random, k: u64) -> Both {
    let table = match k {
        0 => largest_table(r),
        _ => writing::input(r),
    };
    let table = face::Table::from(&table);
    let mut buffer = [0u8; LARGEST];
    let to = buffer.as_mut_ptr() as usize;
    let at = std::ptr::from_ref(&table) as usize;
    let ours = [to, LARGEST, 0, 0, 0, 0];
    let theirs = [at, to, LARGEST, 0, 0, 0];
    [
        taken(face::entry::mt_write as *const (), ours, table),
        taken(plain::entry::plain_write as *const (), theirs, ()),
    ]
}

fn verdict(r: &mut Random, k: u64) -> Both {
    let entry = face::entry::mt_verdict as *const ();
    let plain = plain::entry::plain_verdict as *const ();
    verdict_of(&judged(r, k), [entry, plain])
}

fn sharp(r: &mut Random, k: u64) -> Both {
    let entry = face::entry::mt_sharp as *const ();
    let plain = plain::entry::plain_sharp as *const ();
    verdict_of(&sharply_judged(r, k), [entry, plain])
}

/// Both sides' function for a verdict.
fn verdict_of(bytes: &[u8], sides: [*const (); 2]) -> Both {
    let (_answer, to) = room::<face::VerdictAnswer>();
    let words = [to, bytes.as_ptr() as usize, bytes.len(), 0, 0, 0];
    sides.map(|entry| taken(entry, words, ()))
}

/// Plain C has no quick answer: its whole verdict stands beside.
fn quick(r: &mut Random, k: u64) -> Both {
    let bytes = judged(r, k);
    let (_answer, to) = room::<face::VerdictAnswer>();
    let (from, count) = (bytes.as_ptr() as usize, bytes.len());
    let ours = [from, count, 0, 0, 0, 0];
    let theirs = [to, from, count, 0, 0, 0];
    [
        taken(face::entry::mt_quick as *const (), ours, ()),
        taken(plain::entry::plain_verdict as *const (), theirs, ()),
    ]
}

fn report(r: &mut Random, k: u64) -> Both {
    let entry = face::entry::mt_report as *const ();
    let plain = plain::entry::plain_report as *const ();
    report_of(&judged(r, k), [entry, plain])
}

fn sharp_report(r: &mut Random, k: u64) -> Both {
    let entry = face::entry::mt_sharp_report as *const ();
    let plain = plain::entry::plain_sharp_report as *const ();
    report_of(&sharply_judged(r, k), [entry, plain])
}

/// Both sides' function for a report.
fn report_of(bytes: &[u8], sides: [*const (); 2]) -> Both {
    let mut buffer = [0u8; face::MAX_REPORT];
    let to = buffer.as_mut_ptr() as usize;
    let from = bytes.as_ptr() as usize;
    let words = [from, bytes.len(), to, face::MAX_REPORT, 0, 0];
    sides.map(|entry| taken(entry, words, ()))
}

fn judged(r: &mut Random, k: u64) -> Vec<u8> {
    match k {
        0 => file(&largest_table(r)),
        _ => judging::input(r),
    }
}

/// The first has the longest chain of descents: sixteen vertices and every edge.
fn sharply_judged(r: &mut Random, k: u64) -> Vec<u8> {
    match k {
        0 => file(&largest_table(r)),
        _ => sharply::input(r),
    }
}

fn open(r: &mut Random, k: u64) -> Both {
    let bytes = judged(r, k);
    let (from, count) = (bytes.as_ptr() as usize, bytes.len());
    let (_answer, to) = room::<face::OpenAnswer>();
    let (_state, state) = room::<face::State>();
    let clock = r.number() as usize;
    let ours = [to, from, count, clock, 0, 0];
    let theirs = [from, count, clock, state, 0, 0];
    [
        taken(face::entry::mt_open as *const (), ours, ()),
        taken(plain::entry::plain_open as *const (), theirs, ()),
    ]
}

/// What both ticks are measured on: every task of the largest file is released for the first input.
fn tick_input(r: &mut Random, k: u64) -> ticking::Input {
    let mut input = ticking::input(r);
    if k == 0 {
        input.bytes = file(&largest_table(r));
        input.state = second::flat::open(&input.bytes, 0).state;
        input.releases = u16::MAX;
    }
    input
}

/// Plain C has a tick in place only.
fn tick(r: &mut Random, k: u64) -> Both {
    let input = tick_input(r, k);
    let (from, count) = (input.bytes.as_ptr() as usize, input.bytes.len());
    let (_answer, to) = room::<face::Ticked>();
    let words = [to, from, count, usize::from(input.releases), 0, 0];
    let entry = face::entry::mt_tick as *const ();
    [taken(entry, words, input.state), 0]
}

fn tick_in_place(r: &mut Random, k: u64) -> Both {
    let input = tick_input(r, k);
    let (from, count) = (input.bytes.as_ptr() as usize, input.bytes.len());
    let releases = usize::from(input.releases);
    let (_answer, to) = room::<face::TickAnswer>();
    let mut states = [input.state; 2];
    let [one, other] = states.each_mut().map(|s| std::ptr::from_mut(s) as usize);
    let ours = [to, one, from, count, releases, 0];
    let theirs = [to, from, count, other, releases, 0];
    [
        taken(face::entry::mt_tick_in_place as *const (), ours, ()),
        taken(plain::entry::plain_tick as *const (), theirs, ()),
    ]
}

/// Plain C has no judge.
fn judge(r: &mut Random, k: u64) -> Both {
    let table = match k {
        0 => largest_table(r),
        _ => busy_table(r),
    };
    let (bytes, rows) = (file(&table), journal(r, &table, 12));
    let (from, count) = (bytes.as_ptr() as usize, bytes.len());
    let (_answer, to) = room::<face::Ruling>();
    let words = [to, from, count, rows.as_ptr() as usize, rows.len(), 0];
    [taken(face::entry::mt_judge as *const (), words, ()), 0]
}

fn line(name: &str, one: fn(&mut Random, u64) -> Both, beside: &str) {
    let each = (0..INPUTS).map(|k| one(&mut Random::new(k), k));
    let [ours, theirs] = each.fold([0, 0], |most, now| [0, 1].map(|i| now[i].max(most[i])));
    let theirs = match theirs {
        0 => String::from("-"),
        bytes => bytes.to_string(),
    };
    println!("{name:<18}{ours:>8}{theirs:>10}{beside}");
}

fn main() {
    println!("the stack of a function in bytes: run on one painted with a pattern, the most that changed over {INPUTS} inputs");
    println!("{:<18}{:>8}{:>10}", "", "ours", "plain C");
    let put = |size: usize, what: &str| {
        format!("   and {size} for the {what}, which its caller puts there")
    };
    line("mt_read", read, "");
    line("mt_write", write, &put(size_of::<face::Table>(), "table"));
    line("mt_verdict", verdict, "");
    line("mt_quick", quick, "   (plain C: the whole verdict)");
    line("mt_report", report, "");
    line("mt_sharp", sharp, "");
    line("mt_sharp_report", sharp_report, "");
    line("mt_open", open, "");
    line("mt_tick", tick, &put(size_of::<face::State>(), "state"));
    line("mt_tick_in_place", tick_in_place, "");
    line("mt_judge", judge, "");
}
