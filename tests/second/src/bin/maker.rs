//! `maker SEED`: writes one random schedule.
//! `maker --many FROM COUNT`: writes a framed stream of schedules.
//! `maker --counts FROM COUNT`: counts what these schedules reach.

use second_player::counts::Counts;
use second_player::frames::write_frame;
use second_player::maker::schedule;
use std::io::{self, BufWriter, Write};
use std::process::exit;

fn main() -> io::Result<()> {
    let arguments: Vec<String> = std::env::args().skip(1).collect();
    let words: Vec<&str> = arguments.iter().map(|a| a.as_str()).collect();
    match words[..] {
        [seed] => one(number(seed)),
        ["--many", from, count] => many(number(from), number(count)),
        ["--counts", from, count] => counts(number(from), number(count)),
        _ => usage(),
    }
}

fn usage() -> ! {
    eprintln!("usage: maker SEED | maker --many FROM COUNT | maker --counts FROM COUNT");
    exit(2);
}

fn number(word: &str) -> u64 {
    word.parse().unwrap_or_else(|_| usage())
}

fn one(seed: u64) -> io::Result<()> {
    io::stdout().lock().write_all(&schedule(seed))
}

fn many(from: u64, count: u64) -> io::Result<()> {
    let mut output = BufWriter::with_capacity(1 << 16, io::stdout().lock());
    for seed in from..from + count {
        write_frame(&mut output, &schedule(seed))?;
    }
    output.flush()
}

fn counts(from: u64, count: u64) -> io::Result<()> {
    let mut counts = Counts::new();
    for seed in from..from + count {
        counts.play(&schedule(seed));
    }
    let mut output = BufWriter::new(io::stdout().lock());
    counts.write(from, &mut output)?;
    output.flush()
}
