//! The fuzz target, for libFuzzer: plays each input by the second program in this
//! process, which libFuzzer watches, and by the program named in PROGRAM in a
//! process of its own, and aborts if the sheets are not the same bytes. Without
//! PROGRAM it only plays, many times faster, and so gathers inputs to compare.
#![no_main]
#![allow(dead_code)]

#[path = "../second/src/player/mod.rs"]
mod player;
#[path = "../second/src/random.rs"]
mod random;

use player::numbers::PHASES;
use player::onlooker::Onlooker;
use player::sheet::key_sheet_watched;
use player::state::{Phase, State, Thread};
use random::Random;
use std::ffi::OsStr;
use std::io::{Read, Write};
use std::os::unix::process::ExitStatusExt;
use std::process::{Command, Stdio};
use std::sync::atomic::{AtomicU8, Ordering};

// ---- comparing ----------------------------------------------------------

extern "C" {
    fn signal(signal: i32, handler: usize) -> usize;
}

const SIGPIPE: i32 = 13;
const IGNORE: usize = 1;

/// A program that ends before it has read its input is a difference to be told.
#[no_mangle]
extern "C" fn LLVMFuzzerInitialize(_count: *mut i32, _words: *mut *mut *mut i8) -> i32 {
    unsafe { signal(SIGPIPE, IGNORE) };
    0
}

#[no_mangle]
extern "C" fn LLVMFuzzerTestOneInput(data: *const u8, size: usize) -> i32 {
    let schedule = match size {
        0 => &[],
        // libFuzzer lends `size` bytes there for this call.
        _ => unsafe { std::slice::from_raw_parts(data, size) },
    };
    let expected = key_sheet_watched(schedule, &mut Meetings { last: (0, 0) });
    let Some(program) = std::env::var_os("PROGRAM") else {
        return 0;
    };
    let (sheet, signal) = played_by(&program, schedule);
    if sheet != expected || signal.is_some() {
        eprintln!("the sheets differ");
        eprintln!("schedule: {}", schedule.escape_ascii());
        eprintln!("program:  {} (signal: {signal:?})", sheet.escape_ascii());
        eprintln!("second:   {}", expected.escape_ascii());
        std::process::abort();
    }
    0
}

/// The sheet, and the signal that ended the program if one did. libFuzzer ends a
/// run that takes too long.
fn played_by(program: &OsStr, schedule: &[u8]) -> (Vec<u8>, Option<i32>) {
    let mut child = Command::new(program)
        .stdin(Stdio::piped())
        .stdout(Stdio::piped())
        .stderr(Stdio::null())
        .spawn()
        .expect("PROGRAM can be run");
    // PROGRAM is to read to the end before it writes much. It may stop reading early.
    let _ = child.stdin.take().unwrap().write_all(schedule);
    let mut sheet = Vec::new();
    let _ = child.stdout.take().unwrap().read_to_end(&mut sheet);
    (sheet, child.wait().unwrap().signal())
}

// ---- what libFuzzer is shown beside the edges ---------------------------

/// libFuzzer keeps an input that sets a byte here that none has set before.
#[link_section = "__libfuzzer_extra_counters"]
static MET: [AtomicU8; 2 * PHASES * PHASES] = [const { AtomicU8::new(0) }; 2 * PHASES * PHASES];

/// Marks, at each step, the phases of the thread and of every other, and whether
/// the two have a node in common.
struct Meetings {
    /// The thread of the last step and its phase before it.
    last: (usize, Phase),
}

impl Onlooker for Meetings {
    fn before_step(&mut self, state: &State, thread: usize) {
        let this = &state.threads[thread];
        // One that waits on meets nobody new, and may do so a thousand times a line.
        let now = (thread, this.phase);
        if std::mem::replace(&mut self.last, now) == now {
            return;
        }
        for (t, other) in state.threads.iter().enumerate() {
            if t != thread {
                let phases = this.phase as usize * PHASES + other.phase as usize;
                let at = 2 * phases + a_node_in_common(this, other) as usize;
                MET[at].store(1, Ordering::Relaxed);
            }
        }
    }
}

fn a_node_in_common(this: &Thread, other: &Thread) -> bool {
    let registers = |t: &Thread| [t.prev, t.base, t.neighbour, t.grandparent];
    let others = registers(other);
    registers(this)
        .iter()
        .any(|r| r.is_some() && others.contains(r))
}

// ---- changing an input line by line -------------------------------------

extern "C" {
    fn LLVMFuzzerMutate(data: *mut u8, size: usize, most: usize) -> usize;
}

/// Half of the changes are libFuzzer's own, the others keep lines whole.
#[no_mangle]
extern "C" fn LLVMFuzzerCustomMutator(data: *mut u8, size: usize, most: usize, seed: u32) -> usize {
    let mut random = Random::new(seed as u64);
    if random.one_in(2) {
        return unsafe { LLVMFuzzerMutate(data, size, most) };
    }
    // libFuzzer lends `most` bytes there, of which `size` are the input; when it
    // makes an input small, `size` is one more than `most`.
    let room = unsafe { std::slice::from_raw_parts_mut(data, most) };
    let mut lines: Vec<Vec<u8>> = room[..size.min(most)]
        .split_inclusive(|&c| c == b'\n')
        .map(|line| line.to_vec())
        .collect();
    for _ in 0..random.between(1, 4) {
        change_lines(&mut random, &mut lines);
    }
    let changed = lines.concat();
    let length = changed.len().min(most);
    room[..length].copy_from_slice(&changed[..length]);
    length
}

fn change_lines(random: &mut Random, lines: &mut Vec<Vec<u8>>) {
    let at = random.below(lines.len() + 1);
    let thread = random.below(9);
    if at == lines.len() || random.one_in(2) {
        let line = if random.one_in(3) {
            let operation = random.pick(&["I", "D", "L"]);
            format!("B\t{thread}\t{operation}\t{}\n", random.below(65))
        } else {
            let count = random.pick(&[1, 1, 1, 2, 3, 4, 7, 12, 1000]);
            format!("S\t{thread}\t{count}\n")
        };
        lines.insert(at, line.into_bytes());
        return;
    }
    let to = random.below(lines.len());
    match random.below(4) {
        0 => drop(lines.remove(at)),
        1 => lines.swap(at, to),
        2 => lines.insert(to, lines[at].clone()),
        // Another thread: its number stands behind the letter and a tab.
        _ => {
            if let Some(digit) = lines[at].get_mut(2) {
                *digit = b'0' + thread as u8;
            }
        }
    }
}
