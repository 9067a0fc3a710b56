//! The library and the plain implementation answer alike, and leave the same bytes, in random runs
//! of calls. SELQUORIN_CALLS says how many calls at least: 20,000 unless it is set, and 200,000 in
//! rust/run.sh. SELQUORIN_SEED is the seed: a number, or `random` for another one each time.

use compare::{run, Seen};
use std::io::Write;
use std::sync::atomic::{AtomicU64, Ordering};
use std::sync::Mutex;
use std::time::{SystemTime, UNIX_EPOCH};

const CALLS: u64 = 20_000;
/// So many calls have to see every answer.
const LONG: u64 = 200_000;
const SEED: u64 = 1;

/// Written past the test harness, so that it is seen also where all is well.
fn say(line: &str) {
    let _ = writeln!(std::io::stderr(), "{line}");
}

fn number(name: &str, otherwise: u64) -> u64 {
    match std::env::var(name) {
        Err(_) => otherwise,
        Ok(text) if name == "SELQUORIN_SEED" && text == "random" => {
            let since = SystemTime::now().duration_since(UNIX_EPOCH);
            since.map_or(otherwise, |time| time.as_nanos() as u64)
        }
        Ok(text) => text
            .parse()
            .unwrap_or_else(|_| panic!("{name} isn't a number: {text}")),
    }
}

/// What was seen in all runs, and where the two sides differed.
#[derive(Default)]
struct All {
    seen: Seen,
    calls: u64,
    runs: u64,
    differences: Vec<String>,
}

impl All {
    /// Makes a run, and says whether there have been enough calls, or a difference.
    fn made(all: &Mutex<All>, seed: u64, number: u64, least: u64) -> bool {
        let ran = std::panic::catch_unwind(|| run(seed, number));
        let mut all = all.lock().expect("no thread fails here");
        all.runs += 1;
        let difference = match ran {
            Err(_) => Some("one of the two panicked".to_string()),
            Ok((seen, calls, difference)) => {
                all.calls += calls;
                all.seen.add(seen);
                difference.map(|difference| difference.to_string())
            }
        };
        let difference = difference.map(|difference| format!("run {number}, {difference}"));
        all.differences.extend(difference);
        all.calls >= least || !all.differences.is_empty()
    }

    /// Runs on two threads, until one of them sees the end.
    fn of(seed: u64, least: u64) -> All {
        let next = AtomicU64::new(0);
        let all = Mutex::new(All::default());
        std::thread::scope(|scope| {
            for _ in 0..2 {
                scope.spawn(|| {
                    let number = || next.fetch_add(1, Ordering::Relaxed);
                    while !All::made(&all, seed, number(), least) {}
                });
            }
        });
        all.into_inner().expect("no thread fails here")
    }
}

#[test]
fn random_runs() {
    let seed = number("SELQUORIN_SEED", SEED);
    let least = number("SELQUORIN_CALLS", CALLS);
    say(&format!(
        "compare: SELQUORIN_SEED={seed} SELQUORIN_CALLS={least}"
    ));
    let all = All::of(seed, least);
    for difference in &all.differences {
        say(&format!("compare: SELQUORIN_SEED={seed} {difference}"));
    }
    assert!(all.differences.is_empty(), "library and plain differ");
    for (answer, times) in &all.seen.0 {
        say(&format!("compare: {times:>7} {answer}"));
    }
    let (calls, runs) = (all.calls, all.runs);
    say(&format!("compare: {calls} calls in {runs} runs, all alike"));
    let borrowed = all.seen.0[Seen::BORROWED];
    assert!(2 * borrowed > calls, "only {borrowed} on borrowed books");
    if least >= LONG {
        assert_eq!(all.seen.missing(), Vec::<&str>::new(), "answers never seen");
    }
}
