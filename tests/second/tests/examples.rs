//! The played examples A to J of document 01, and the smaller rules around them.

use second_player::checks::Checker;
use second_player::maker::schedule;
use second_player::player::keys::rising;
use second_player::player::operations::{INSERT, LOOKUP};
use second_player::player::records::Begin;
use second_player::player::settings::{Settings, SOURCE_SETTINGS};
use second_player::player::sheet::{key_sheet, key_sheet_watched};
use second_player::player::state::State;
use second_player::player::step::{Ending, Reply};

/// Blanks stand for tabs; lines are parted by " / ", as document 01 prints them.
fn tabs(text: &str) -> Vec<u8> {
    let mut out = Vec::new();
    if text.is_empty() {
        return out;
    }
    for line in text.split(" / ") {
        out.extend_from_slice(line.replace(' ', "\t").as_bytes());
        out.push(b'\n');
    }
    out
}

fn plays(schedule: &str, sheet: &str) {
    let got = key_sheet(&tabs(schedule));
    let got = String::from_utf8(got).unwrap();
    let want = String::from_utf8(tabs(sheet)).unwrap();
    assert_eq!(got, want, "schedule: {schedule}");
}

fn begin(state: &mut State, thread: usize, operation: u32, key: usize) {
    let begin = Begin {
        thread,
        operation,
        key,
    };
    state.begin(begin).unwrap();
}

fn steps(state: &mut State, thread: usize, count: usize) -> Reply {
    let mut reply = Reply::GoesOn;
    for _ in 0..count {
        reply = state.step(thread).unwrap();
        if reply != Reply::GoesOn {
            break;
        }
    }
    reply
}

fn ended(answer: u32, commit_number: u32) -> Reply {
    Reply::Ended(Ending {
        answer,
        commit_number,
    })
}

fn keys_of(state: &State, node: usize) -> Vec<usize> {
    rising(&state.nodes[node].keys).collect()
}

const B_START: &str = "R 1 3 -1 2 / B 0 I 5 / S 0 1000 / B 0 I 9 / S 0 1000 / B 0 I 2 / S 0 1000";
const B_START_SHEET: &str = "R / B 0 / D 0 4 1 1 / B 0 / D 0 4 1 2 / B 0 / D 0 4 1 3";
const B_REST: &str =
    "B 0 L 5 / S 0 2 / B 1 I 7 / S 1 2 / S 1 1 / S 0 1000 / S 1 1 / S 1 1 / S 1 1000";
const B_REST_SHEET: &str =
    "B 0 / S 0 2 5 / B 1 / S 1 2 4 / S 1 1 4 / D 0 2 1 4 / S 1 1 5 / S 1 1 6 / D 1 4 1 5";

#[test]
fn example_a() {
    plays(
        "R 1 250 -1000 1000 / B 0 I 5 / S 0 1000 / B 1 L 5 / S 1 2 / S 1 1000",
        "R / B 0 / D 0 4 1 1 / B 1 / S 1 2 5 / D 1 2 1 2 / E 2 1 5",
    );
}

#[test]
fn example_b_sheet() {
    plays(
        &format!("{B_START} / {B_REST}"),
        &format!("{B_START_SHEET} / {B_REST_SHEET} / E 5 4 2,5,7,9"),
    );
}

/// The state after B's own steps, by library calls.
fn state_after_b() -> State {
    let settings = Settings {
        succ: 1,
        fail: 3,
        min: -1,
        max: 2,
    };
    let mut state = State::fresh(settings).unwrap();
    for key in [5, 9, 2] {
        begin(&mut state, 0, INSERT, key);
        steps(&mut state, 0, 1000);
    }
    begin(&mut state, 0, LOOKUP, 5);
    steps(&mut state, 0, 2);
    begin(&mut state, 1, INSERT, 7);
    steps(&mut state, 1, 2);
    assert_eq!(state.threads[1].phase, 4);
    steps(&mut state, 1, 1);
    assert_eq!(state.threads[1].phase, 4);
    assert_eq!(steps(&mut state, 0, 1000), ended(1, 4));
    // "Thread 1 takes 1: phase 5, statistics 3; 1 more: phase 6"
    steps(&mut state, 1, 1);
    assert_eq!(state.threads[1].phase, 5);
    assert_eq!(state.nodes[0].statistics, 3);
    steps(&mut state, 1, 1);
    assert_eq!(state.threads[1].phase, 6);
    assert_eq!(steps(&mut state, 1, 4), ended(1, 5));
    state
}

#[test]
fn example_b_state() {
    let state = state_after_b();
    // "Route 3 has key 7, base 1 holds 2, 5, base 2 holds 7, 9."
    assert!(state.is_route(3));
    assert_eq!(state.root, 3);
    assert_eq!(state.nodes[3].key, 7);
    assert_eq!((state.nodes[3].left, state.nodes[3].right), (1, 2));
    assert_eq!(keys_of(&state, 1), [2, 5]);
    assert_eq!(keys_of(&state, 2), [7, 9]);
    assert!(!state.nodes[0].valid);
    assert_eq!(state.made, 4);
}

#[test]
fn example_c() {
    plays(
        &format!("{B_START} / {B_REST} / B 0 L 2 / S 0 5 / B 0 L 2 / S 0 1000"),
        &format!(
            "{B_START_SHEET} / {B_REST_SHEET} / B 0 / D 0 5 1 6 / B 0 / D 0 16 1 7 / E 7 5 2,5,7,9"
        ),
    );
}

#[test]
fn example_c_phase_by_phase() {
    let mut state = state_after_b();
    begin(&mut state, 0, LOOKUP, 2);
    steps(&mut state, 0, 5);
    assert_eq!(state.nodes[1].statistics, -1);
    begin(&mut state, 0, LOOKUP, 2);
    let mut phases = Vec::new();
    while state.step(0).unwrap() == Reply::GoesOn {
        phases.push(state.threads[0].phase);
    }
    let expected = [2, 3, 5, 9, 11, 12, 13, 14, 15, 19, 20, 21, 23, 24, 25];
    assert_eq!(phases, expected);
    assert_eq!(state.root, 4);
    assert_eq!(keys_of(&state, 4), [2, 5, 7, 9]);
}

#[test]
fn example_d() {
    plays(
        &format!("{B_START} / {B_REST} / B 0 L 2 / S 0 5 / B 0 L 2 / S 0 12"),
        &format!(
            "{B_START_SHEET} / {B_REST_SHEET} / B 0 / D 0 5 1 6 / B 0 / S 0 12 21 / E 7 5 7,9"
        ),
    );
}

#[test]
fn example_e() {
    assert_eq!(key_sheet(b""), b"X\t2\n");
}

#[test]
fn example_f() {
    plays("R 1 250 -1000 1000 / B 8 I 64", "R / X 3 / E 0 1 -");
}

#[test]
fn example_g() {
    plays(
        "R 1 250 -1000 1000 / B 0 I 63 / B 0 I 64 / B 1 I 64 / S 0 1000",
        "R / B 0 / X 4 / X 4 / D 0 4 1 1 / E 1 1 63",
    );
}

#[test]
fn example_h() {
    plays(
        "R 1 250 -1000 1000 / S 0 1001 / S 0 1000 / B 0 I 1 / S 0 1001 / S 0 0 / S 0 1000",
        "R / X 10 / X 6 / B 0 / X 10 / X 10 / D 0 4 1 1 / E 1 1 1",
    );
}

/// Two keys, then so many contended lookups; each adds fail, with succ 0.
fn contended_lookups(fail: u32, keys: &[u32], times: u32) -> (String, String) {
    let mut text = format!("R 0 {fail} -1000 1000");
    let mut sheet = "R".to_string();
    let mut commit = 0;
    for key in keys {
        commit += 1;
        text += &format!(" / B 0 I {key} / S 0 1000");
        sheet += &format!(" / B 0 / D 0 4 1 {commit}");
    }
    for _ in 0..times {
        text += " / B 0 L 1 / S 0 2 / B 1 L 1 / S 1 2 / S 0 1000 / S 1 2";
        commit += 1;
        sheet += &format!(" / B 0 / S 0 2 5 / B 1 / S 1 2 4 / D 0 2 1 {commit}");
        commit += 1;
        sheet += " / S 1 2 ?";
        text += " / S 1 1000";
        sheet += &format!(" / D 1 ! 1 {commit}");
    }
    (text, sheet)
}

/// Fills in the phase after each taking and the steps left from there.
fn with_endings(sheet: &str, endings: &[(u32, u32)]) -> String {
    let mut out = sheet.to_string();
    for (phase, steps) in endings {
        out = out.replacen('?', &phase.to_string(), 1);
        out = out.replacen('!', &steps.to_string(), 1);
    }
    out
}

#[test]
fn example_i_exactly_max_does_not_split() {
    // 4 times 250: statistics 1000, max 1000
    let (text, sheet) = contended_lookups(250, &[1, 2], 4);
    let sheet = with_endings(&sheet, &[(25, 1); 4]);
    plays(&text, &format!("{sheet} / E 10 1 1,2"));
}

#[test]
fn example_i_one_above_max_splits() {
    // 7 times 143: statistics 1001, max 1000
    let (text, sheet) = contended_lookups(143, &[1, 2], 7);
    let mut endings = vec![(25, 1); 6];
    endings.push((6, 4));
    let sheet = with_endings(&sheet, &endings);
    plays(&text, &format!("{sheet} / E 16 4 1,2"));
}

#[test]
fn example_i_one_above_max_with_one_key_does_not_split() {
    let (text, sheet) = contended_lookups(143, &[1], 7);
    let sheet = with_endings(&sheet, &[(25, 1); 7]);
    plays(&text, &format!("{sheet} / E 15 1 1"));
}

#[test]
fn example_i_by_library_calls() {
    for (statistics, keys, phase, after) in [
        (1000, 2, 25, 1000),
        (1001, 2, 6, 1001),
        (1001, 1, 25, 0),
        (-1000, 2, 25, -1000),
        (-1001, 2, 25, 0),
    ] {
        let mut state = State::fresh(SOURCE_SETTINGS).unwrap();
        for key in 0..keys {
            state.nodes[0].keys[key] = true;
        }
        begin(&mut state, 0, LOOKUP, 0);
        steps(&mut state, 0, 2);
        state.nodes[0].statistics = statistics;
        steps(&mut state, 0, 1);
        assert_eq!(state.threads[0].phase, phase);
        assert_eq!(state.nodes[0].statistics, after);
    }
}

#[test]
fn example_j() {
    plays(
        "R 1 250 -1000 1000 / B 0 I 5 / S 0 1 / B 0 I 6 / S 0 1000",
        "R / B 0 / S 0 1 3 / X 5 / D 0 3 1 1 / E 1 1 5",
    );
}

#[test]
fn first_lines() {
    let refused: [&[u8]; 22] = [
        b"",
        b"\n",
        b"\nR\t1\t250\t-1000\t1000\n",
        b"B\t0\tI\t5\n",
        b"R\t1\t250\t-1000\n",
        b"R\t1\t250\t-1000\t1000\t\n",
        b"R\t1\t250\t-1000\t1000 \n",
        b"R\t1\t250\t-1000\t1000\r\n",
        b"R 1 250 -1000 1000\n",
        b"R\t1001\t250\t-1000\t1000\n",
        b"R\t1\t1001\t-1000\t1000\n",
        b"R\t1\t250\t-1000001\t1000\n",
        b"R\t1\t250\t-1000\t1000001\n",
        b"R\t1\t250\t1\t1000\n",
        b"R\t1\t250\t-0\t1000\n",
        b"R\t1\t250\t-01\t1000\n",
        b"R\t1\t250\t--1\t1000\n",
        b"R\t1\t250\t-\t1000\n",
        b"R\t-1\t250\t-1\t1000\n",
        b"R\t01\t250\t-1\t1000\n",
        b"R\t+1\t250\t-1\t1000\n",
        b"r\t1\t250\t-1\t1000\n",
    ];
    for schedule in refused {
        assert_eq!(key_sheet(schedule), b"X\t2\n");
    }
    for good in [
        "R 0 0 0 0",
        "R 1000 1000 -1000000 1000000",
        "R 1 250 -1000 1000",
    ] {
        plays(good, "R / E 0 1 -");
    }
    // the last line may lack its newline
    assert_eq!(key_sheet(b"R\t0\t0\t0\t0"), b"R\nE\t0\t1\t-\n");
}

#[test]
fn lines_of_no_form() {
    let slips: [&[u8]; 30] = [
        b"",
        b" ",
        b"\r",
        b"\t",
        b"B",
        b"S",
        b"B\t0\tI",
        b"B\t0\tI\t5\t",
        b"B\t0\tI\t5\t1",
        b"B\t0\tI\t5 ",
        b"B\t0\tI\t5\r",
        b"B\t00\tI\t5",
        b"B\t0\tI\t05",
        b"B\t-0\tI\t5",
        b"B\t0\tI\t-5",
        b"B\t0\ti\t5",
        b"B\t0\t0\t5",
        b"B\t0\t\t5",
        b"B\t\tI\t5",
        b"b\t0\tI\t5",
        b"B 0 I 5",
        b"B\t\t0\tI\t5",
        b"S\t0",
        b"S\t0\t1\t1",
        b"S\t0\t01",
        b"S\t0\t10000000",
        b"S\t8\t01",
        b"B\t8\tQ\t64",
        b"B\t00000000\tI\t5",
        b"R\t1\t250\t-1000\t1000",
    ];
    for slip in slips {
        let mut schedule = b"R\t1\t250\t-1000\t1000\n".to_vec();
        schedule.extend_from_slice(slip);
        schedule.push(b'\n');
        assert_eq!(key_sheet(&schedule), b"R\nX\t1\nE\t0\t1\t-\n", "{:?}", slip);
    }
}

#[test]
fn order_of_refusals() {
    plays("R 0 0 0 0 / S 8 0", "R / X 3 / E 0 1 -");
    plays("R 0 0 0 0 / S 9999999 1", "R / X 3 / E 0 1 -");
    plays("R 0 0 0 0 / S 0 9999999", "R / X 10 / E 0 1 -");
    plays("R 0 0 0 0 / B 0 I 9999999", "R / X 4 / E 0 1 -");
    plays("R 0 0 0 0 / B 0 I 5 / B 0 I 64", "R / B 0 / X 4 / E 0 1 -");
    plays("R 0 0 0 0 / S 7 1 / B 7 D 5", "R / X 6 / B 7 / E 0 1 -");
}

#[test]
fn waits_count() {
    plays(
        "R 1 250 -1000 1000 / B 0 I 5 / S 0 2 / B 1 I 5 / S 1 1000 / S 1 1 / S 0 1 / S 0 1 / S 1 3",
        "R / B 0 / S 0 2 5 / B 1 / S 1 1000 4 / S 1 1 4 / S 0 1 25 / D 0 1 1 1 / D 1 3 0 2 / E 2 1 5",
    );
}

#[test]
fn bytes_of_a_schedule() {
    let first_line = b"R\t1\t250\t-1000\t1000\n";
    let mut schedule = first_line.to_vec();
    while schedule.len() < 60_000 {
        schedule.push(b'\n');
    }
    let sheet = key_sheet(&schedule);
    assert!(sheet.starts_with(b"R\nX\t1\nX\t1\n"));
    assert!(sheet.ends_with(b"X\t1\nE\t0\t1\t-\n"));
    assert_eq!(sheet.len(), 2 + 4 * (60_000 - first_line.len()) + 8);
    schedule.push(b'\n');
    assert_eq!(key_sheet(&schedule), b"X\t12\n");
    schedule[0] = b'Q';
    assert_eq!(key_sheet(&schedule), b"X\t12\n");
    schedule.pop();
    assert_eq!(key_sheet(&schedule), b"X\t2\n");
}

#[test]
fn with_and_without_the_last_newline() {
    for seed in 0..300 {
        let mut text = schedule(seed);
        if text.last() != Some(&b'\n') || text.len() > 60_000 {
            continue;
        }
        let with = key_sheet(&text);
        text.pop();
        // an empty last line, or none, is another matter
        if text.last() != Some(&b'\n') && !text.is_empty() {
            assert_eq!(with, key_sheet(&text));
        }
    }
}

#[test]
fn schedules_depend_on_their_seed_alone() {
    for seed in 0..50 {
        assert_eq!(schedule(seed), schedule(seed));
    }
}

#[test]
fn checks_hold_on_some_schedules() {
    for seed in 0..60 {
        let mut checker = Checker::new();
        key_sheet_watched(&schedule(seed), &mut checker);
        assert!(
            checker.failures.is_empty(),
            "seed {seed}: {:?}",
            checker.failures
        );
    }
}
