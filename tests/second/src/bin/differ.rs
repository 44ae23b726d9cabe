//! `differ PROGRAM SEED...` or `differ PROGRAM --from N --count M`: plays the
//! maker's schedules through PROGRAM, one process for each, and through the
//! second program, and compares the sheets byte for byte. At the first
//! difference it tells where it is, makes the schedule small, and ends with
//! status 1. Further choices: `--jobs J` (2), `--seconds T` (60, the longest
//! that PROGRAM may take for one schedule), `--shrink T` (30, the seconds spent
//! on making a schedule small).

use second_player::differ::running::{watch, Outcome, Place};
use second_player::differ::shrinking::Shrinker;
use second_player::differ::telling::tell;
use second_player::maker::schedule;
use second_player::player::sheet::key_sheet;
use std::collections::BTreeMap;
use std::path::Path;
use std::process::exit;
use std::sync::atomic::{AtomicBool, AtomicUsize, Ordering};
use std::sync::Mutex;

// ---- what is wished -----------------------------------------------------

fn usage() -> ! {
    eprintln!(
        "usage: PROGRAM (SEED... | --from N --count M) [--jobs J] [--seconds T] [--shrink T]"
    );
    exit(2);
}

struct Wishes {
    program: Vec<String>,
    seeds: Vec<u64>,
    from: u64,
    count: usize,
    jobs: usize,
    seconds: u64,
    shrink: u64,
}

fn wishes() -> Wishes {
    let mut arguments = std::env::args().skip(1);
    let program = arguments.next().unwrap_or_else(|| usage());
    let mut wishes = Wishes {
        program: words_of(&program),
        seeds: Vec::new(),
        from: 0,
        count: 0,
        jobs: 2,
        seconds: 60,
        shrink: 30,
    };
    while let Some(word) = arguments.next() {
        match word.as_str() {
            "--from" => wishes.from = number(arguments.next()),
            "--count" => wishes.count = number(arguments.next()) as usize,
            "--jobs" => wishes.jobs = number(arguments.next()).max(1) as usize,
            "--seconds" => wishes.seconds = number(arguments.next()),
            "--shrink" => wishes.shrink = number(arguments.next()),
            _ => wishes.seeds.push(number(Some(word))),
        }
    }
    if wishes.seeds.is_empty() == (wishes.count == 0) {
        usage();
    }
    wishes
}

fn number(word: Option<String>) -> u64 {
    word.and_then(|word| word.parse().ok())
        .unwrap_or_else(|| usage())
}

/// PROGRAM is a file, or a command with its arguments parted by blanks.
fn words_of(program: &str) -> Vec<String> {
    if Path::new(program).is_file() {
        let here = Path::new(".").join(program);
        return vec![here.to_string_lossy().into_owned()];
    }
    let words: Vec<String> = program.split_whitespace().map(|w| w.to_string()).collect();
    if words.is_empty() {
        usage();
    }
    words
}

impl Wishes {
    fn how_many(&self) -> usize {
        if self.seeds.is_empty() {
            self.count
        } else {
            self.seeds.len()
        }
    }

    fn seed(&self, i: usize) -> u64 {
        if self.seeds.is_empty() {
            self.from + i as u64
        } else {
            self.seeds[i]
        }
    }
}

// ---- comparing ----------------------------------------------------------

/// What the workers share.
struct Comparison {
    wishes: Wishes,
    next: AtomicUsize,
    stop: AtomicBool,
    compared: AtomicUsize,
    found: Mutex<BTreeMap<usize, Outcome>>,
}

impl Comparison {
    /// Compares one schedule after the other, until there are no more or one of
    /// the workers has found a difference.
    fn work(&self, place: &Place) {
        while !self.stop.load(Ordering::SeqCst) {
            let i = self.next.fetch_add(1, Ordering::SeqCst);
            if i >= self.wishes.how_many() {
                break;
            }
            let schedule = schedule(self.wishes.seed(i));
            let outcome = place.run(&self.wishes.program, &schedule);
            if !outcome.agrees(&key_sheet(&schedule)) {
                self.found.lock().unwrap().insert(i, outcome);
                self.stop.store(true, Ordering::SeqCst);
            }
            self.compared.fetch_add(1, Ordering::SeqCst);
        }
    }

    /// Of several found at once the first counts.
    fn tell_first(&self, place: &Place) {
        let found = self.found.lock().unwrap();
        if let Some((&i, outcome)) = found.iter().next() {
            let seed = self.wishes.seed(i);
            let schedule = schedule(seed);
            let mut shrinker = Shrinker::new(&self.wishes.program, place, self.wishes.shrink);
            let small = shrinker.small(&schedule, outcome);
            tell(seed, &schedule, outcome, &small, shrinker.runs);
        }
    }
}

fn main() {
    let comparison = Comparison {
        wishes: wishes(),
        next: AtomicUsize::new(0),
        stop: AtomicBool::new(false),
        compared: AtomicUsize::new(0),
        found: Mutex::new(BTreeMap::new()),
    };
    let places: Vec<Place> = (0..comparison.wishes.jobs).map(|_| Place::new()).collect();
    let finished = AtomicBool::new(false);
    std::thread::scope(|scope| {
        scope.spawn(|| watch(&places, comparison.wishes.seconds, &finished));
        let comparison = &comparison;
        let work = |place| scope.spawn(move || comparison.work(place));
        let workers: Vec<_> = places.iter().map(work).collect();
        for worker in workers {
            worker.join().unwrap();
        }
        comparison.tell_first(&places[0]);
        finished.store(true, Ordering::SeqCst);
    });
    let compared = comparison.compared.into_inner();
    let differences = comparison.found.into_inner().unwrap().len();
    if differences > 0 {
        println!("{compared} schedules, {differences} differences; stopped at the first");
        exit(1);
    }
    println!("{compared} schedules, 0 differences");
}
