//! The exported ring divider beside the Rust: every returned value, every node
//! bit, every cell place, and guards around each list.
//!
//! compare blocks < BLOCKS   each ring on an empty list, and all on one list
//! compare calls < CALLS     calls over prefilled lists, of any entry
//! compare writes < BLOCKS   each ring saved by the writer, and wrong numbers and rooms
//! compare desk FILE         the supplied calls of the writer
//! compare sheet FILE        the supplied calls of the cell sheet
//! compare prints SEED COUNT sheets of 1,000 tried doubles beside an exact decimal printer
//! compare wear FILE         the supplied calls of the record of wear
//! compare wears SEED COUNT  lists of 100 answers into a record, handed on
//! compare smallest FILE     the supplied calls of the smallest ring still refused
//! compare smalls SEED COUNT rings at random, every choice tried through the Rust
//! compare details FOLDER    the detailed forms of a folder of vectors
//! compare supplied FOLDER   the same of the supplied calls of the cards, with rim marks
//! compare memory < BLOCKS   stack and heap of a call on both sides
//!
//! compare before COMMAND    the same before Card 11, whose test the Rust leaves out

include!("shared.rs");

#[allow(dead_code)]
mod desk;
#[allow(dead_code)]
mod emit;
mod least;
mod library;
#[allow(dead_code)]
mod meeting;
mod memory;
#[allow(dead_code)]
mod notes;
#[allow(dead_code)]
mod random;
#[path = "../embed/ring_divide.rs"]
mod ring_divide;
mod sides;
mod smallest;
#[allow(dead_code)]
mod supplied;
#[allow(dead_code)]
mod wear;
mod worn;

use blocks::Jobs;
use call::{Asked, NodeList};
use forms::{CELL_PLACES, NODE_PLACES};
use job::{Entry, Job, Set};
use library::{compared, listed, node_image, refused, written};
use std::io::Read;
use traced::Met;

/// Differences shown before the rest are only counted.
const SHOWN: usize = 10;

/// What was compared so far.
#[derive(Default)]
struct Tally {
    compared: usize,
    different: usize,
}

impl Tally {
    fn add<T>(&mut self, name: &str, job: &Job, result: Result<T, String>) {
        self.compared += 1;
        if let Err(text) = result {
            self.different += 1;
            if self.different <= SHOWN {
                println!("{name}: {text}");
                println!(
                    "  size {} ring {:?} chain {:?}",
                    job.size, job.ring, job.chain
                );
            }
        }
    }

    fn end(self) -> ! {
        println!(
            "compared {} calls, {} differ",
            self.compared, self.different
        );
        std::process::exit(i32::from(self.different > 0 || self.compared == 0))
    }
}

fn main() {
    let arguments: Vec<String> = std::env::args().skip(1).collect();
    let mut words: Vec<&str> = arguments.iter().map(String::as_str).collect();
    if words.first() == Some(&"before") {
        words.remove(0);
        standin::before_card_11();
    }
    match words.as_slice() {
        ["blocks"] => over_blocks(&input()),
        ["calls"] => over_calls(&String::from_utf8(input()).expect("calls are text")),
        ["writes"] => over_writes(&input()),
        ["desk", file] => over_desk(file),
        ["sheet", file] => over_sheet(file),
        ["prints", seed, count] => over_prints(seed, count),
        ["wear", file] => over_wear(file),
        ["wears", seed, count] => over_wears(seed, count),
        ["smallest", file] => over_smallest(file),
        ["smalls", seed, count] => over_smalls(seed, count),
        ["details", folder] => over_details(folder, sides::agrees_with_detail),
        ["supplied", folder] => over_details(folder, sides::agrees_with_supplied),
        ["memory"] => print!("{}", memory::peaks(&input())),
        _ => {
            eprintln!("use: compare [before] blocks|calls|writes|memory < INPUT, desk FILE, sheet FILE, prints SEED COUNT, wear FILE, wears SEED COUNT, smallest FILE, smalls SEED COUNT, details FOLDER, or supplied FOLDER");
            std::process::exit(2)
        }
    }
}

fn input() -> Vec<u8> {
    let mut bytes = Vec::new();
    std::io::stdin()
        .read_to_end(&mut bytes)
        .expect("standard input can be read");
    bytes
}

fn over_blocks(bytes: &[u8]) -> ! {
    let mut tally = Tally::default();
    let mut list = NodeList::empty(NODE_PLACES);
    let mut image = node_image(&list, 0);
    for (number, job) in Jobs::new(bytes).flatten().enumerate() {
        let odd = number % 4;
        for (entry, how) in [
            (Entry::Examination, "alone"),
            (Entry::Limited(Set::DELIVERED), "with the set"),
            (Entry::Practice, "for practice"),
        ] {
            let mut fresh = NodeList::empty(NODE_PLACES);
            let mut fresh_image = node_image(&fresh, odd % 2);
            let asked = Asked::of(entry, &job);
            let result = compared(asked, &mut fresh, &mut fresh_image, CELL_PLACES, 0, odd);
            tally.add(&format!("ring {number} {how}"), &job, result);
        }
        let own = Asked::of(Entry::Examination, &job);
        let shared = compared(own, &mut list, &mut image, CELL_PLACES, 0, 0);
        tally.add(&format!("ring {number} on one list"), &job, shared);
        if number % 64 == 0 {
            wrong_lengths(&mut tally, number, &job);
        }
    }
    tally.end()
}

/// Odd lengths are 1, and come before counts above their lists and too few marks,
/// which are 3.
fn wrong_lengths(tally: &mut Tally, number: usize, job: &Job) {
    let name = format!("ring {number} with wrong lengths");
    let (ring, chain) = (2 * job.ring.len(), 2 * job.chain.len());
    let beyond = (usize::MAX, usize::MAX);
    if ring > 0 {
        tally.add(&name, job, refused((ring - 1, chain), job, (0, 0), 300, 1));
        tally.add(&name, job, refused((ring - 1, chain), job, beyond, 0, 1));
    }
    if chain > 0 {
        tally.add(&name, job, refused((ring, chain - 1), job, beyond, 299, 1));
    }
    let square = Job {
        ring: vec![[0, 0], [9, 0], [9, 9], [0, 9]],
        size: 1,
        ..Job::default()
    };
    for counts in [(usize::MAX, 0), (0, usize::MAX), (301, 0), (0, 125)] {
        tally.add(&name, &square, refused((8, 0), &square, counts, 300, 3));
    }
    for marks in [0, 1, 299] {
        tally.add(&name, &square, refused((8, 0), &square, (0, 0), marks, 3));
    }
}

fn over_calls(text: &str) -> ! {
    let (mut tally, mut met) = (Tally::default(), Met::default());
    for (list_number, given) in calls::read(text).iter().enumerate() {
        let mut list = NodeList::given(given);
        let mut image = node_image(&list, list_number % 2);
        for call in &given.calls {
            let (places, count, odd) = (call.cell_places, call.cell_count, list_number % 4);
            let asked = Asked::by(call);
            let Asked { entry, job, marking } = asked;
            let result = compared(asked, &mut list, &mut image, places, count, odd);
            if let (Some(marking), Ok(0 | 8)) = (marking, result.as_ref().map(|r| r.code)) {
                met.add(&job.ring, marking);
            }
            tally.add(&format!("list {list_number} {entry:?}"), job, result);
        }
    }
    if met.sought > 0 {
        println!(
            "{} marks sought an outline: {} with ties, {} at distance 0, {} on a hole, {} on a segment of no length",
            met.sought, met.ties, met.on, met.holes, met.flat
        );
    }
    tally.end()
}

/// Each ring of the input through the writer: with its own number the bytes of
/// the input come back; with wrong numbers and rooms nothing is written.
fn over_writes(bytes: &[u8]) -> ! {
    let mut tally = Tally::default();
    for (number, job) in Jobs::new(bytes).flatten().enumerate() {
        let at = 2 * number as u32;
        let name = format!("ring {number} written");
        let (ring, chain) = (numbers(&job.ring), numbers(&job.chain));
        let back = written(&ring, &chain, job.size, at, 1_024 + number % 3 * 40).and_then(|pair| {
            let own = &bytes[1_024 * number..1_024 * (number + 1)];
            if pair.is_empty() || pair == own {
                Ok(())
            } else {
                Err("not the bytes that were read".into())
            }
        });
        tally.add(&name, &job, back);
        for (n, room) in [
            (at + 1, 1_024),
            (at, 1_023),
            (65_534, 1_024),
            (65_535, 1_024),
            (65_536, 1_024),
            (u32::MAX - 1, 2_000),
            (at, 0),
        ] {
            tally.add(&name, &job, written(&ring, &chain, job.size, n, room));
        }
        for size in [0, 1, 2_048, 2_049, 65_536, u32::MAX] {
            tally.add(&name, &job, written(&ring, &chain, size, at, 1_030));
        }
        let short = ring.len().saturating_sub(1);
        tally.add(&name, &job, written(&ring[..short], &chain, job.size, 1, 0));
    }
    tally.end()
}

fn numbers(points: &[[i32; 2]]) -> Vec<i32> {
    points.iter().flatten().copied().collect()
}

fn over_desk(file: &str) -> ! {
    let mut tally = Tally::default();
    for (number, c) in desk::cases(file).iter().enumerate() {
        let result = written(&c.ring, &c.chain, c.size, c.number, c.room);
        tally.add(&format!("case {number}"), &Job::default(), result);
    }
    tally.end()
}

fn over_sheet(file: &str) -> ! {
    let mut tally = Tally::default();
    for (number, c) in paper::cases(file).iter().enumerate() {
        let result = listed(&c.nodes, c.used, c.room);
        tally.add(&format!("case {number}"), &Job::default(), result);
    }
    tally.end()
}

/// COUNT sheets of 500 nodes, and of each a room one byte short.
fn over_prints(seed: &str, count: &str) -> ! {
    let number = |word: &str| word.parse::<u64>().expect("a number");
    let mut tally = Tally::default();
    for sheet in 0..number(count) {
        let tried = |i: u64| paper::tried(number(seed), 1_000 * sheet + i);
        let nodes: Vec<f64> = (0..1_000).map(tried).collect();
        let name = format!("sheet {sheet}");
        tally.add(
            &name,
            &Job::default(),
            listed(&nodes, 500, 32_500 + sheet as usize % 70),
        );
        tally.add(&name, &Job::default(), listed(&nodes, 500, 32_499));
    }
    tally.end()
}

fn over_wear(file: &str) -> ! {
    let mut tally = Tally::default();
    for (number, c) in wear::cases(file).iter().enumerate() {
        let result = worn::compared(&c.record, c.code, c.cuts);
        tally.add(&format!("case {number}"), &Job::default(), result);
    }
    tally.end()
}

fn over_wears(seed: &str, count: &str) -> ! {
    let number = |word: &str| word.parse::<u64>().expect("a number");
    let (mut tally, mut random) = (Tally::default(), random::Random::new(number(seed)));
    for list in 0..number(count) {
        let result = worn::list(&mut random, 100);
        tally.add(&format!("list {list}"), &Job::default(), result);
    }
    tally.end()
}

/// Each call beside the Rust and beside the supplied answer.
fn over_smallest(file: &str) -> ! {
    let mut tally = Tally::default();
    for (number, (case, told)) in smallest::cases(file).iter().enumerate() {
        let result = least::compared(case).and_then(|ours| match ours == *told {
            true => Ok(()),
            false => Err(format!("gave {ours:?}, supplied {told:?}")),
        });
        tally.add(&format!("case {number}"), &Job::default(), result);
    }
    tally.end()
}

fn over_smalls(seed: &str, count: &str) -> ! {
    let number = |word: &str| word.parse::<u64>().expect("a number");
    let (mut tally, mut random) = (Tally::default(), random::Random::new(number(seed)));
    let mut met = std::collections::BTreeMap::new();
    for ring in 0..number(count) {
        let result = least::compared(&smallest::tried(&mut random));
        if let Ok([code, refusal, _, points]) = result {
            *met.entry((code, refusal, points)).or_insert(0) += 1;
        }
        tally.add(&format!("ring {ring}"), &Job::default(), result);
    }
    for ((code, refusal, points), times) in met {
        println!("code {code} refusal {refusal} points {points}: {times} times");
    }
    tally.end()
}

fn over_details(folder: &str, agrees: fn(&std::path::Path) -> bool) -> ! {
    let mut different = 0;
    let mut names: Vec<_> = std::fs::read_dir(folder)
        .expect("the folder can be read")
        .map(|entry| entry.expect("an entry").path())
        .filter(|path| path.extension().is_some_and(|e| e == "bin" || e == "calls"))
        .collect();
    names.sort();
    for name in &names {
        let agrees = agrees(name);
        println!(
            "{}  {}",
            if agrees { "agrees " } else { "DIFFERS" },
            name.display()
        );
        different += usize::from(!agrees);
    }
    println!("compared {} files, {different} differ", names.len());
    std::process::exit(i32::from(different > 0 || names.is_empty()))
}
