//! If the library touches forbidden memory the program must end; this tells
//! which tests and rounds were running then.

use crate::run::Test;
use std::os::raw::{c_int, c_void};
use std::sync::atomic::{AtomicU64, AtomicUsize, Ordering};
use std::sync::Mutex;

const SIGBUS: c_int = if cfg!(target_os = "macos") { 10 } else { 7 };
const SIGSEGV: c_int = 11;

extern "C" {
    fn signal(number: c_int, handler: usize) -> usize;
    fn write(file: c_int, bytes: *const c_void, length: usize) -> isize;
    fn _exit(status: c_int) -> !;
}

/// For each worker the round it is in.
static ROUNDS: [AtomicU64; 2] = [AtomicU64::new(0), AtomicU64::new(0)];
/// For each worker the place of its test's name in `NAMES`, from 1; 0 for none.
static TESTS: [AtomicUsize; 2] = [AtomicUsize::new(0), AtomicUsize::new(0)];
/// The names, kept for ever; and the seed.
static NAMES: Mutex<Vec<&'static str>> = Mutex::new(Vec::new());
static SEED: AtomicU64 = AtomicU64::new(0);

/// Notes what a worker does now.
pub fn note(worker: usize, test: &'static str, round: u64) {
    if round == 0 {
        let names = NAMES.lock().expect("names are only looked up");
        let place = names.iter().position(|name| *name == test);
        TESTS[worker].store(place.map_or(0, |place| place + 1), Ordering::Relaxed);
    }
    ROUNDS[worker].store(round, Ordering::Relaxed);
}

/// Writes the note and ends the program. The fault comes from the library,
/// which never asks for memory, so asking for some here can't get stuck.
extern "C" fn on_fault(_: c_int) {
    let mut text = String::from("forbidden memory was touched; running were:\n");
    if let Ok(names) = NAMES.try_lock() {
        for worker in 0..2 {
            let test = TESTS[worker].load(Ordering::Relaxed);
            if let Some(name) = test.checked_sub(1).and_then(|place| names.get(place)) {
                text += &format!(
                    "  test {} seed {} round {}\n",
                    name,
                    SEED.load(Ordering::Relaxed),
                    ROUNDS[worker].load(Ordering::Relaxed)
                );
            }
        }
    }
    // Safety: the text lives until the program ends right below.
    unsafe {
        write(2, text.as_ptr() as *const c_void, text.len());
        _exit(3);
    }
}

/// Has faults told from now on.
pub fn tell_on_stderr(tests: &[Test], seed: u64) {
    SEED.store(seed, Ordering::Relaxed);
    let mut names = NAMES.lock().expect("names are set once");
    names.extend(tests.iter().map(|test| test.name));
    let handler = on_fault as extern "C" fn(c_int);
    // Safety: the handler has the type that the system expects.
    unsafe {
        signal(SIGSEGV, handler as usize);
        signal(SIGBUS, handler as usize);
    }
}
