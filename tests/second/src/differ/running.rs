//! Running the other program, one process for each schedule.

use std::io::{Read, Write};
use std::os::unix::process::ExitStatusExt;
use std::process::{exit, Child, ChildStdin, ChildStdout, Command, Stdio};
use std::sync::atomic::{AtomicBool, Ordering};
use std::sync::Mutex;
use std::time::{Duration, Instant};

/// More than any sheet needs.
const MOST_SHEET_BYTES: u64 = 4_000_000;
/// Schedules up to this long are written to the program at once: any pipe holds
/// them.
const SURELY_HELD_BY_A_PIPE: usize = 4096;

/// The process that a worker runs now, so that it can be ended if it takes too
/// long.
pub struct Place {
    running: Mutex<Option<(Instant, Child)>>,
    too_long: AtomicBool,
}

/// What the program wrote, and how it ended if it did not end well.
pub struct Outcome {
    pub sheet: Vec<u8>,
    pub trouble: Option<String>,
}

impl Outcome {
    pub fn agrees(&self, expected: &[u8]) -> bool {
        self.trouble.is_none() && self.sheet == expected
    }
}

impl Place {
    pub fn new() -> Place {
        Place {
            running: Mutex::new(None),
            too_long: AtomicBool::new(false),
        }
    }

    pub fn run(&self, program: &[String], schedule: &[u8]) -> Outcome {
        let mut child = started(program);
        let input = child.stdin.take().unwrap();
        let output = child.stdout.take().unwrap();
        self.too_long.store(false, Ordering::SeqCst);
        *self.running.lock().unwrap() = Some((Instant::now(), child));
        let sheet = sheet_written(input, output, schedule);
        let trouble = self.ended(sheet.len() as u64 == MOST_SHEET_BYTES);
        Outcome { sheet, trouble }
    }

    /// Waits for the process, and says how it ended if not well.
    fn ended(&self, wrote_too_much: bool) -> Option<String> {
        let (_, mut child) = self.running.lock().unwrap().take().unwrap();
        if wrote_too_much {
            let _ = child.kill();
        }
        let status = child
            .wait()
            .expect("a process of one's own can be waited for");
        if self.too_long.load(Ordering::SeqCst) {
            return Some("it took too long and was ended".to_string());
        }
        let signal = status.signal()?;
        Some(format!("it was ended by signal {signal}"))
    }

    /// Ends the process if it has run for longer than this.
    fn end_if_too_long(&self, seconds: u64) {
        if let Some((since, child)) = self.running.lock().unwrap().as_mut() {
            if since.elapsed() > Duration::from_secs(seconds) {
                self.too_long.store(true, Ordering::SeqCst);
                let _ = child.kill();
            }
        }
    }
}

fn started(program: &[String]) -> Child {
    let child = Command::new(&program[0])
        .args(&program[1..])
        .stdin(Stdio::piped())
        .stdout(Stdio::piped())
        .stderr(Stdio::null())
        .spawn();
    child.unwrap_or_else(|error| {
        eprintln!("cannot run {}: {error}", program[0]);
        exit(2);
    })
}

/// The program may stop reading early; that is its own affair.
fn sheet_written(mut input: ChildStdin, output: ChildStdout, schedule: &[u8]) -> Vec<u8> {
    let mut sheet = Vec::new();
    if schedule.len() <= SURELY_HELD_BY_A_PIPE {
        let _ = input.write_all(schedule);
        drop(input);
        let _ = output.take(MOST_SHEET_BYTES).read_to_end(&mut sheet);
    } else {
        std::thread::scope(|scope| {
            scope.spawn(move || {
                let _ = input.write_all(schedule);
            });
            let _ = output.take(MOST_SHEET_BYTES).read_to_end(&mut sheet);
        });
    }
    sheet
}

/// Ends the workers' processes when they take too long.
pub fn watch(places: &[Place], seconds: u64, finished: &AtomicBool) {
    while !finished.load(Ordering::SeqCst) {
        std::thread::sleep(Duration::from_millis(50));
        for place in places {
            place.end_if_too_long(seconds);
        }
    }
}
