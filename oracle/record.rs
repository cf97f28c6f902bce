//! The fixed lists that the program `replay` runs: calls and blocks with what
//! the Rust answers, as 32-bit words.
//!
//! record rings NUMBER.. < BLOCKS   these rings, or all, each on an empty list
//! record calls < CALLS             calls over prefilled lists
//! record blocks FILE..             every block of these files, up to the first refusal
//! record pairs FILE                the calls of the writer in FILE.cases, answered as FILE.expect says
//! record sheets FILE               the calls of the cell sheet, likewise; those over 64 numbers are left out
//! record wear FILE                 the calls of the record of wear, likewise
//! record smallest FILE             the calls of the smallest ring still refused in FILE.calls, answered as FILE.detail says
//! record crossings FILE            the segments of FILE.cross, answered as FILE.answers says
//!
//! 1 PLACES USED RIMS, then for each used node (PLACES at most) four words: x, y,
//!   and the marks of these (RIMS at most), four to a word
//! 2 SIZE CELL_NUMBERS CELL_COUNT RING_NUMBERS CHAIN_NUMBERS, the coordinates,
//!   code corners k marked cuts pieces, turned and area (two words each),
//!   nodes cells, the count of new node numbers and two words for each,
//!   the first cell number that is written, how many, and a word for each, the
//!   count of marks, with 0 and 8 those of all nodes, and these, four to a word
//! 5 SIZE CELL_NUMBERS CELL_COUNT RING_NUMBERS KINDS SNAPS OUTLINE LOOPS, the
//!   ring, the kinds, two words for each number of the snaps, the outline, the
//!   loops, and as in 2 what is left
//! 7 CORNER LEAST GREATEST (two words each) CUTS SHARE (two): the set of the
//!   call that follows, a record 2 or 5
//! 8: the call that follows, a record 2, is of the practice entry
//! 3 NUMBER LENGTH, a word for each byte, code, and if it is 0 kind, count,
//!   size and the 120 coordinates
//! 4 SIZE NUMBER ROOM RING_NUMBERS CHAIN_NUMBERS, the coordinates, code, and
//!   the count of words that are written, and each
//! 5 USED (two words) NODE_NUMBERS ROOM, two words for each number, code, and
//!   the count of bytes that are written, and these, four to a word
//! 6 CODE CUTS (two words each) BYTES, a word for each byte of the record,
//!   code total highest rings, and the bytes of the record, four to a word
//! 7 SIZE RING_NUMBERS CHAIN_NUMBERS, the coordinates, code refusal choice points
//! 9, the eight coordinates of two segments, and 0 apart, 1 touching, 2 crossing

include!("shared.rs");

mod desk;
#[allow(dead_code)]
mod emit;
mod meeting;
#[allow(dead_code)]
mod notes;
#[allow(dead_code)]
mod random;
#[allow(dead_code)]
mod smallest;
#[allow(dead_code)]
mod wear;

use blocks::Jobs;
use call::{Asked, Cell, NodeList, UNTOUCHED};
use forms::{run, run_with, Run, CELL_PLACES, NODE_PLACES};
use job::{Entry, Job, Marking, BLOCK};
use std::io::{Read, Write};

/// Numbers of a ring or chain, and places of the lists, that `replay` holds.
const MOST_NUMBERS: usize = 256;
const MOST_CELLS: usize = 512;

/// Numbers of a node list that `desk` holds.
const MOST_SHEET: usize = 64;

#[derive(Default)]
struct Words(Vec<u8>);

impl Words {
    fn put(&mut self, word: u32) {
        self.0.extend(word.to_le_bytes());
    }

    fn count(&mut self, count: usize) {
        self.put(u32::try_from(count).expect("a count of 32 bits"));
    }

    fn long(&mut self, long: u64) {
        self.put(long as u32);
        self.put((long >> 32) as u32);
    }

    fn list(&mut self, list: &NodeList) {
        let nodes = &list.nodes.points;
        self.put(1);
        self.count(list.places);
        self.count(list.used);
        self.count(list.rims.len());
        for x in nodes.iter().flatten() {
            self.long(x.to_bits());
        }
        self.packed(&list.rims[..nodes.len().min(list.rims.len())]);
    }

    fn call(&mut self, job: &Job, run: &Run, list: &NodeList) {
        self.put(2);
        self.put(job.size);
        self.count(run.cells.len() * 4);
        self.count(run.cells_before);
        self.count(job.ring.len() * 2);
        self.count(job.chain.len() * 2);
        for x in job.ring.iter().chain(&job.chain).flatten() {
            self.put(*x as u32);
        }
        self.left(run, list);
    }

    /// Before a call, which entry it is of.
    fn entry(&mut self, entry: &Entry) {
        match entry {
            Entry::Examination => {}
            Entry::Practice => self.put(8),
            Entry::Limited(set) => {
                self.put(7);
                self.long(set.corner.to_bits());
                self.long(set.least.to_bits());
                self.long(set.greatest.to_bits());
                self.put(set.cuts);
                self.long(set.share.to_bits());
            }
        }
    }

    fn marked(&mut self, job: &Job, m: &Marking, run: &Run, list: &NodeList) {
        self.put(5);
        self.put(job.size);
        self.count(run.cells.len() * 4);
        self.count(run.cells_before);
        for n in [job.ring.len() * 2, m.kinds.len(), m.snaps.len()] {
            self.count(n);
        }
        self.count(m.outline.len());
        self.count(m.loops.len());
        job.ring.iter().flatten().for_each(|x| self.put(*x as u32));
        m.kinds.iter().for_each(|k| self.put((*k).into()));
        m.snaps.iter().for_each(|x| self.long(x.to_bits()));
        m.outline.iter().for_each(|x| self.put(*x as u32));
        m.loops.iter().for_each(|n| self.put(*n));
        self.left(run, list);
    }

    /// What a call returned and left.
    fn left(&mut self, run: &Run, list: &NodeList) {
        let a = &run.answer;
        let corners = a.n.max(a.corners);
        for value in [a.code.into(), corners, a.k, a.marked, a.cuts, a.pieces] {
            self.count(value);
        }
        self.long(a.turned as u64);
        self.long(a.area as u64);
        self.count(a.nodes);
        self.count(a.cells);
        let new: &[[f64; 2]] = if a.nodes > run.nodes_before {
            &list.nodes.points[run.nodes_before..a.nodes]
        } else {
            &[]
        };
        self.count(new.len() * 2);
        for x in new.iter().flatten() {
            self.long(x.to_bits());
        }
        let written = |cell: &Cell| *cell != UNTOUCHED;
        let first = run.cells.iter().position(written).unwrap_or(0);
        let end = run.cells.iter().rposition(written).map_or(0, |k| k + 1);
        self.count(first * 4);
        self.count((end - first) * 4);
        for number in run.cells[first..end].iter().flatten() {
            self.put((*number).into());
        }
        let marked = matches!(a.code, 0 | 8);
        self.bytes(&list.rims[..if marked { a.nodes } else { 0 }]);
    }

    fn block(&mut self, number: usize, bytes: &[u8], code: u8) {
        self.put(3);
        self.count(number);
        self.count(bytes.len());
        for byte in bytes {
            self.put((*byte).into());
        }
        self.put(code.into());
    }

    fn pair(&mut self, case: &desk::Case) {
        self.put(4);
        self.put(case.size);
        self.put(case.number);
        self.count(case.room);
        self.count(case.ring.len());
        self.count(case.chain.len());
        for x in case.ring.iter().chain(&case.chain) {
            self.put(*x as u32);
        }
        self.put(case.code);
        self.count(case.written.len() / 4);
        self.0.extend(&case.written);
    }

    fn bytes(&mut self, bytes: &[u8]) {
        self.count(bytes.len());
        self.packed(bytes);
    }

    /// Four to a word.
    fn packed(&mut self, bytes: &[u8]) {
        self.0.extend(bytes);
        self.0.resize(self.0.len().next_multiple_of(4), 0);
    }

    fn sheet(&mut self, case: &paper::Case) {
        self.put(5);
        self.long(case.used);
        self.count(case.nodes.len());
        self.count(case.room);
        for x in &case.nodes {
            self.long(x.to_bits());
        }
        self.put(case.code);
        self.bytes(&case.written);
    }

    fn wear(&mut self, case: &wear::Case) {
        self.put(6);
        self.long(case.code);
        self.long(case.cuts);
        self.count(case.record.len());
        case.record.iter().for_each(|b| self.put((*b).into()));
        case.values.iter().for_each(|v| self.put(*v as u32));
        self.bytes(&case.left);
    }

    fn smallest(&mut self, case: &smallest::Case, told: &smallest::Answer) {
        self.put(7);
        self.put(case.size);
        self.count(case.ring.len());
        self.count(case.chain.len());
        for x in case.ring.iter().chain(&case.chain) {
            self.put(*x as u32);
        }
        told.iter().for_each(|v| self.put(*v as u32));
    }

    fn crossing(&mut self, case: &meeting::Case) {
        self.put(9);
        for x in case.ends.iter().flatten() {
            self.put(*x as u32);
        }
        self.put(case.answer);
    }

    fn points(&mut self, kind: u32, points: &[[i32; 2]], size: u32) {
        self.put(kind);
        self.count(points.len());
        self.put(size);
        let numbers: Vec<i32> = points.iter().flatten().copied().collect();
        for k in 0..120 {
            self.put(numbers.get(k).copied().unwrap_or(0) as u32);
        }
    }
}

fn held(job: &Job) -> bool {
    job.ring.len() * 2 <= MOST_NUMBERS && job.chain.len() * 2 <= MOST_NUMBERS
}

fn rings(bytes: &[u8], chosen: &[usize]) -> Words {
    let mut words = Words::default();
    for (number, job) in Jobs::new(bytes).flatten().enumerate() {
        if !held(&job) || !(chosen.is_empty() || chosen.contains(&number)) {
            continue;
        }
        let mut list = NodeList::empty(NODE_PLACES);
        words.list(&list);
        let ran = run(&job, &mut list, CELL_PLACES, 0);
        words.call(&job, &ran, &list);
    }
    words
}

fn lists(text: &str) -> Words {
    let mut words = Words::default();
    for given in calls::read(text) {
        let small = |c: &job::Call| held(&c.job) && c.cell_places <= MOST_CELLS;
        if given.places.max(given.rims) > NODE_PLACES || !given.calls.iter().all(small) {
            continue;
        }
        let mut list = NodeList::given(&given);
        words.list(&list);
        for call in &given.calls {
            let ran = run_with(Asked::by(call), &mut list, call.cell_places, call.cell_count);
            words.entry(&call.entry);
            match &call.marking {
                Some(marking) => words.marked(&call.job, marking, &ran, &list),
                None => words.call(&call.job, &ran, &list),
            }
        }
    }
    words
}

/// The blocks of a file with what the reader must answer of each.
fn file(words: &mut Words, bytes: &[u8]) {
    let part = |number: usize| &bytes[number * BLOCK..bytes.len().min((number + 1) * BLOCK)];
    let mut number = 0;
    for job in Jobs::new(bytes) {
        match job {
            Ok(job) => {
                words.block(number, part(number), 0);
                words.points(1, &job.ring, job.size);
                words.block(number + 1, part(number + 1), 0);
                words.points(2, &job.chain, 0);
                number += 2;
            }
            Err(refused) => {
                if refused.block > number {
                    // The ring of a refused chain; what it holds shows in other files.
                    number += 1;
                }
                words.block(number, part(number), refused.code);
            }
        }
    }
}

fn main() {
    let arguments: Vec<String> = std::env::args().skip(1).collect();
    let mut words = Words::default();
    let mut input = Vec::new();
    let mut standard = || {
        let read = std::io::stdin().read_to_end(&mut input);
        read.expect("standard input can be read");
        input.clone()
    };
    match arguments.first().map(String::as_str) {
        Some("rings") => {
            let number = |word: &String| word.parse().expect("a ring's number");
            let chosen: Vec<usize> = arguments[1..].iter().map(number).collect();
            words = rings(&standard(), &chosen);
        }
        Some("calls") => words = lists(&String::from_utf8(standard()).expect("calls are text")),
        Some("blocks") => {
            for path in &arguments[1..] {
                file(&mut words, &std::fs::read(path).expect("a file of blocks"));
            }
        }
        Some("pairs") => {
            for path in &arguments[1..] {
                desk::cases(path).iter().for_each(|case| words.pair(case));
            }
        }
        Some("sheets") => {
            let small = |case: &paper::Case| case.nodes.len() <= MOST_SHEET;
            for path in &arguments[1..] {
                let cases = paper::cases(path);
                cases
                    .iter()
                    .filter(|case| small(case))
                    .for_each(|case| words.sheet(case));
            }
        }
        Some("wear") => {
            for path in &arguments[1..] {
                wear::cases(path).iter().for_each(|case| words.wear(case));
            }
        }
        Some("smallest") => {
            for path in &arguments[1..] {
                let cases = smallest::cases(path);
                cases.iter().for_each(|(case, told)| words.smallest(case, told));
            }
        }
        Some("crossings") => {
            for path in &arguments[1..] {
                meeting::cases(path)
                    .iter()
                    .for_each(|case| words.crossing(case));
            }
        }
        _ => {
            eprintln!("use: record rings [NUMBER..]|calls < INPUT | record blocks FILE.. | record pairs|sheets|wear|smallest|crossings FILE");
            std::process::exit(2)
        }
    }
    if std::io::stdout().write_all(&words.0).is_err() {
        std::process::exit(1)
    }
}
