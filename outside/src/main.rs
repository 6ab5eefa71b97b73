//! Compares the library with the reference in many named tests.
//!
//! Usage: outside [--seed S] [--scale K] [--only NAME] [--round R]
//!                [--words FILE] [--patterns FILE] [--threads 1|2] [--list]

mod faults;
mod run;
mod suite;

use run::{Options, Run, Test};
use std::sync::atomic::{AtomicUsize, Ordering};
use std::sync::Mutex;
use std::time::Instant;

/// How one test went.
struct Outcome {
    passed: bool,
    cases: u64,
}

/// Runs one test; a panic in it counts as a failure.
fn run_test(test: &Test, options: &Options, worker: usize) -> Outcome {
    let start = Instant::now();
    let mut run = Run::new(test.name, options, worker);
    let body = std::panic::AssertUnwindSafe(|| (test.body)(&mut run));
    let result = match std::panic::catch_unwind(body) {
        Ok(result) => result,
        Err(_) => Err(run.located("  the test panicked".to_string())),
    };
    let seconds = start.elapsed().as_secs_f64();
    let cases = run.cases();
    let verdict = if result.is_ok() { "ok" } else { "FAILED" };
    let mut told = format!(
        "{:<24} {:>10} cases {:>8.2} s  {}\n",
        test.name, cases, seconds, verdict
    );
    if let Err(mismatch) = &result {
        told += mismatch;
        told += "\n";
    }
    print!("{}", told);
    Outcome {
        passed: result.is_ok(),
        cases,
    }
}

/// Takes tests from the list until none is left.
fn work(
    worker: usize,
    tests: &[Test],
    next: &AtomicUsize,
    options: &Options,
    outcomes: &Mutex<Vec<Outcome>>,
) {
    loop {
        let number = next.fetch_add(1, Ordering::SeqCst);
        let test = match tests.get(number) {
            Some(test) => test,
            None => return,
        };
        let outcome = run_test(test, options, worker);
        outcomes.lock().expect("no test holds this").push(outcome);
    }
}

fn main() {
    let options = match Options::read(std::env::args().skip(1)) {
        Ok(options) => options,
        Err(complaint) => {
            eprintln!("{}", complaint);
            std::process::exit(2);
        }
    };
    let mut tests = suite::all(&options);
    tests.retain(|test| options.wants(test.name));
    if options.list {
        for test in &tests {
            println!("{}", test.name);
        }
        return;
    }
    faults::tell_on_stderr(&tests, options.seed);
    let start = Instant::now();
    let next = AtomicUsize::new(0);
    let outcomes = Mutex::new(Vec::new());
    std::thread::scope(|scope| {
        for worker in 0..options.threads {
            let (tests, next, options, outcomes) = (&tests, &next, &options, &outcomes);
            scope.spawn(move || work(worker, tests, next, options, outcomes));
        }
    });
    let outcomes = outcomes.into_inner().expect("all workers are done");
    let passed = outcomes.iter().filter(|outcome| outcome.passed).count();
    let failed = outcomes.len() - passed;
    let cases: u64 = outcomes.iter().map(|outcome| outcome.cases).sum();
    println!(
        "seed {}, scale {}: {} cases in {:.1} s",
        options.seed,
        options.scale,
        cases,
        start.elapsed().as_secs_f64()
    );
    println!("{} passed, {} failed", passed, failed);
    std::process::exit(if failed == 0 && passed > 0 { 0 } else { 1 });
}
