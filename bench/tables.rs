//! The tables of docs/BENCHMARKS.md: the exported divider beside the Rust, answers and time. bench/tables builds it and runs it.
//!
//! tables rings FILE ..        the rings of files of blocks, on lists in use
//! tables windows PLACES ..    windows of panes, divided ring by ring from an empty list until so many places are full
//! tables refused FILE ..      refused rings, by their number
//!
//! Each answer is compared with the Rust's, outside the clock: every value, node bit, rim mark and cell place. A difference
//! ends the program with 1.

include!("../oracle/shared.rs");

mod clock;
#[path = "../oracle/desk.rs"]
#[allow(dead_code)]
mod desk;
#[path = "../oracle/emit.rs"]
#[allow(dead_code)]
mod emit;
#[path = "../oracle/library.rs"]
#[allow(dead_code)]
mod library;
mod notes;
mod panes;
mod refused;
#[path = "../embed/ring_divide.rs"]
mod ring_divide;
mod rings;
mod windows;

use job::Job;

fn main() {
    let arguments: Vec<String> = std::env::args().skip(1).collect();
    let words: Vec<&str> = arguments.iter().map(String::as_str).collect();
    match words.as_slice() {
        ["rings", files @ ..] => rings::table(files),
        ["windows", places @ ..] => {
            let number = |p: &&str| p.parse().expect("a number of places");
            windows::tables(&places.iter().map(number).collect::<Vec<usize>>())
        }
        ["refused", files @ ..] => refused::table(files),
        _ => {
            eprintln!("use: tables rings FILE.. | windows PLACES.. | refused FILE..");
            std::process::exit(2)
        }
    }
}

/// The rings of a file of blocks, and the kind that it is named after.
fn read(file: &str) -> (String, Vec<Job>) {
    let bytes = std::fs::read(file).expect("the blocks can be read");
    let path = std::path::Path::new(file);
    let kind = path.file_stem().expect("a name").to_string_lossy();
    (
        kind.into_owned(),
        blocks::Jobs::new(&bytes).flatten().collect(),
    )
}

/// The two sides answered otherwise.
fn differs(job: &Job, how: &str) -> ! {
    eprintln!(
        "differs: {how}\nsize {} ring {:?} chain {:?}",
        job.size, job.ring, job.chain
    );
    std::process::exit(1)
}
