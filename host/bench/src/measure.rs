//! Times and instruction counts of one call.

use std::collections::HashSet;
use std::hint::black_box;
use std::process::Command;
use std::time::{Duration, Instant};

/// The best of many short rounds, in nanoseconds for one call. Short rounds are seldom interrupted by other work on the machine.
pub fn time(mut call: impl FnMut() -> bool) -> f64 {
    const ROUND: Duration = Duration::from_micros(400);
    const ROUNDS: usize = 300;
    let calls = calls_in(ROUND, &mut call);
    let round = |_| {
        let start = Instant::now();
        for _ in 0..calls {
            assert!(black_box(call()), "a measured sheet is answered as it was made to be");
        }
        start.elapsed().as_nanos() as f64 / f64::from(calls)
    };
    (0..ROUNDS).map(round).fold(f64::INFINITY, f64::min)
}

/// How many calls fill a round, at least one.
fn calls_in(round: Duration, call: &mut impl FnMut() -> bool) -> u32 {
    let start = Instant::now();
    let mut calls = 0;
    while start.elapsed() < round {
        black_box(call());
        calls += 1;
    }
    calls.max(1)
}

/// Runs a call where valgrind counts: only what happens in here is counted.
#[inline(never)]
#[no_mangle]
pub fn counted_call(call: &mut dyn FnMut() -> bool) {
    assert!(black_box(call()), "a measured sheet is answered as it was made to be");
}

/// The instructions of the one call that this program makes when it is started with `words`, or none without valgrind. Memory that is cleared
/// does not count: valgrind has one instruction for each byte, where the processor clears many at once.
pub fn instructions(words: &[&str]) -> Option<u64> {
    let program = std::env::current_exe().ok()?;
    let profile = std::env::temp_dir().join(format!("bench-{}.callgrind", std::process::id()));
    let output = Command::new("valgrind")
        .args(["--tool=callgrind", "--toggle-collect=counted_call"])
        .arg(format!("--callgrind-out-file={}", profile.display()))
        .arg(program)
        .args(words)
        .output()
        .ok()?;
    let costs = std::fs::read_to_string(&profile).ok()?;
    std::fs::remove_file(&profile).ok()?;
    let log = String::from_utf8_lossy(&output.stderr).into_owned();
    let line = log.lines().find(|line| line.contains("Collected :"))?;
    let all: u64 = line.rsplit(' ').next()?.parse().ok()?;
    Some(all - clearing(&costs))
}

/// What a profile of callgrind has for the functions that clear memory. A function's name comes with its number where it is first met, as a caller
/// or called; a caller's costs follow, a line each: a place and a count.
fn clearing(costs: &str) -> u64 {
    let mut numbers = HashSet::new();
    let mut is_clearing = false;
    let mut sum = 0;
    for line in costs.lines() {
        if let Some(function) = line.strip_prefix("fn=").or(line.strip_prefix("cfn=")) {
            let number = function.split(')').next().unwrap_or_default();
            if function.contains("memset") {
                numbers.insert(number);
            }
            if line.starts_with("fn=") {
                is_clearing = numbers.contains(number);
            }
        } else if is_clearing && line.starts_with(|first: char| first.is_ascii_digit() || "+-*".contains(first)) {
            sum += line.split(' ').nth(1).and_then(|count| count.parse::<u64>().ok()).unwrap_or_default();
        }
    }
    sum
}
