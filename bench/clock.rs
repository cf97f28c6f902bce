//! What a call takes, on each side, and how times are summed up and written.
//!
//! A clock holds the call and nothing else: lists are copied and answers are freed outside it. The Rust's pool of listed nodes
//! stands ready, as it does in the Rust.

use crate::call::{divide, tested, Asked, NodeList, UNTOUCHED};
use crate::forms::CELL_PLACES;
use crate::job::{Entry, Job};
use std::hint::black_box;
use std::time::Instant;

/// Calls of each ring, of which the median counts.
pub const REPEATS: usize = 15;

/// What a piece of work takes, in ns. What it answers is freed outside the clock.
pub fn timed<T>(work: impl FnOnce() -> T) -> u64 {
    let start = Instant::now();
    let answer = black_box(work());
    let time = start.elapsed().as_nanos() as u64;
    drop(answer);
    time
}

/// The Rust, with the tests of refusals 1 to 4.
pub fn rust(job: &Job, list: &mut NodeList) -> u64 {
    let mut cells = [UNTOUCHED; CELL_PLACES];
    timed(|| divide(job, list, &mut cells, 0))
}

/// The Rust alone: a ring that would pass the tests, with none of them made.
pub fn untested(job: &Job, list: &mut NodeList) -> u64 {
    let mut cells = [UNTOUCHED; CELL_PLACES];
    timed(|| tested(Asked::of(Entry::Examination, job), list, &mut cells, 0))
}

pub fn median(times: &mut [u64]) -> u64 {
    times.sort_unstable();
    times.get(times.len() / 2).copied().unwrap_or(0)
}

pub fn mean(times: &[u64]) -> u64 {
    times.iter().sum::<u64>() / times.len().max(1) as u64
}

/// Nanoseconds as µs.
pub fn micro(ns: u64) -> String {
    let digits = match ns {
        0..=9_999 => 2,
        10_000..=99_999 => 1,
        _ => 0,
    };
    grouped(&format!("{:.digits$}", ns as f64 / 1_000.0))
}

/// Mean and median of some times, as the tables have them.
pub fn both(times: &mut [u64]) -> String {
    format!("{} / {}", micro(mean(times)), micro(median(times)))
}

/// `part` in hundredths of `whole`.
pub fn percent(part: u64, whole: u64) -> String {
    format!("{:.0} %", 100.0 * part as f64 / whole.max(1) as f64)
}

/// A number with commas between thousands.
pub fn grouped(number: &str) -> String {
    let whole = number.find('.').unwrap_or(number.len());
    let mut out = String::new();
    for (k, digit) in number.char_indices() {
        if 0 < k && k < whole && (whole - k) % 3 == 0 {
            out.push(',');
        }
        out.push(digit);
    }
    out
}

pub fn count(number: usize) -> String {
    grouped(&number.to_string())
}
