//! `second`: reads a schedule from standard input, writes its key sheet.
//! `second --many`: the same for a framed stream of schedules.
//! `second --check [--many]`: plays with checks after each step instead.

use second_player::checks::Checker;
use second_player::frames::{read_frame, write_frame};
use second_player::player::sheet::{key_sheet, key_sheet_watched};
use std::io::{self, BufReader, BufWriter, Read, StdinLock, Write};
use std::process::exit;

fn main() -> io::Result<()> {
    let arguments: Vec<String> = std::env::args().skip(1).collect();
    let words: Vec<&str> = arguments.iter().map(|a| a.as_str()).collect();
    match words[..] {
        [] => one(),
        ["--many"] => many(),
        ["--check"] => check_one(),
        ["--check", "--many"] => check_many(),
        _ => {
            eprintln!("usage: second [--many | --check | --check --many]");
            exit(2);
        }
    }
}

fn whole_input() -> io::Result<Vec<u8>> {
    let mut schedule = Vec::new();
    io::stdin().lock().read_to_end(&mut schedule)?;
    Ok(schedule)
}

fn framed_input() -> BufReader<StdinLock<'static>> {
    BufReader::with_capacity(1 << 16, io::stdin().lock())
}

fn one() -> io::Result<()> {
    io::stdout().lock().write_all(&key_sheet(&whole_input()?))
}

fn many() -> io::Result<()> {
    let mut input = framed_input();
    let mut output = BufWriter::with_capacity(1 << 16, io::stdout().lock());
    while let Some(schedule) = read_frame(&mut input)? {
        write_frame(&mut output, &key_sheet(&schedule))?;
    }
    output.flush()
}

#[derive(Default)]
struct Totals {
    schedules: u64,
    steps: u64,
    most_routes: usize,
    failed: u64,
}

fn check(schedule: &[u8], totals: &mut Totals) {
    let mut checker = Checker::new();
    key_sheet_watched(schedule, &mut checker);
    totals.steps += checker.steps;
    totals.most_routes = totals.most_routes.max(checker.walks.most_routes);
    if !checker.failures.is_empty() {
        totals.failed += 1;
        println!("schedule {} (from 0):", totals.schedules);
        for failure in &checker.failures {
            println!("  {failure}");
        }
    }
    totals.schedules += 1;
}

fn report(totals: &Totals) {
    println!(
        "{} schedules, {} steps checked, at most {} routes in a walk, {} failed",
        totals.schedules, totals.steps, totals.most_routes, totals.failed
    );
    if totals.failed > 0 {
        exit(1);
    }
}

fn check_one() -> io::Result<()> {
    let mut totals = Totals::default();
    check(&whole_input()?, &mut totals);
    report(&totals);
    Ok(())
}

fn check_many() -> io::Result<()> {
    let mut input = framed_input();
    let mut totals = Totals::default();
    while let Some(schedule) = read_frame(&mut input)? {
        check(&schedule, &mut totals);
    }
    report(&totals);
    Ok(())
}
