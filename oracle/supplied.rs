//! The supplied calls of the cards: their text form, and the detailed form of
//! what the Rust, or the library, returns and leaves, rim marks included.
//!
//! list LEN USED RIMS       LEN numbers of nodes, all infinite; RIMS marks, all 9
//! put X Y MARK             the next place of the list
//! fill COUNT X0 Y0         so many next places: a lattice of 0.25 mm
//! node PLACE X Y           one place
//! rim PLACE MARK           one mark
//! call ENTRY NAME=.. ..    over the list so far, with a cell list of its own
//! smallest NAME=.. ..      Card 13
//!
//! A slice is written flat and may have any length. `#` begins a comment.

use crate::blocks::Jobs;
use crate::call::{Answer, Asked, Cell, NodeList, NO_MARK, UNTOUCHED};
use crate::calls::{double, number, set};
use crate::forms::{self, answer_line, line, run_with, Run, CELL_PLACES, NODE_PLACES};
use crate::job::{Entry, Job, Marking};
use crate::meeting;
use crate::smallest::{Answer as Least, Case};

/// One line, after which the list and the calls before it stay as they are.
pub enum Step {
    List(Lent),
    Node(usize, [f64; 2]),
    Rim(usize, u8),
    Call(Called),
    Smallest(Called),
}

/// A node list with its marks, as they are lent.
#[derive(Clone, Default)]
pub struct Lent {
    pub numbers: Vec<f64>,
    pub used: usize,
    pub rims: Vec<u8>,
}

/// A call as it is written; a slice of odd length is kept as it is.
#[derive(Default)]
pub struct Called {
    pub name: String,
    pub entry: Entry,
    pub size: u32,
    pub ring: Vec<i32>,
    pub chain: Vec<i32>,
    pub marking: Option<Marking>,
    pub cell_numbers: usize,
    pub cell_count: usize,
}

pub fn read(text: &str) -> Vec<Step> {
    let (mut steps, mut next) = (Vec::new(), 0);
    for line in text.lines() {
        let line = line.split('#').next().unwrap_or_default();
        let words: Vec<&str> = line.split_whitespace().collect();
        match words.as_slice() {
            [] => {}
            ["list", numbers, used, rims] => {
                next = 0;
                steps.push(Step::List(Lent {
                    numbers: vec![f64::INFINITY; number(numbers)],
                    used: number(used),
                    rims: vec![NO_MARK; number(rims)],
                }));
            }
            ["put", x, y, mark] => {
                steps.push(Step::Node(next, [double(x), double(y)]));
                steps.push(Step::Rim(next, number(mark) as u8));
                next += 1;
            }
            ["fill", count, x, y] => {
                let places = next..next + number(count);
                next = places.end;
                steps.extend(places.flat_map(|p| lattice(p, double(x), double(y))));
            }
            ["node", place, x, y] => {
                steps.push(Step::Node(number(place), [double(x), double(y)]));
            }
            ["rim", place, mark] => steps.push(Step::Rim(number(place), number(mark) as u8)),
            ["call", entry, values @ ..] => steps.push(Step::Call(called(entry, values))),
            ["smallest", values @ ..] => steps.push(Step::Smallest(called("ring", values))),
            _ => panic!("no such line: {line}"),
        }
    }
    steps
}

fn lattice(p: usize, x: f64, y: f64) -> [Step; 2] {
    let node = [x + 0.25 * (p % 1_000) as f64, y + 0.25 * (p / 1_000) as f64];
    [
        Step::Node(p, node),
        Step::Rim(p, u8::from(p.is_multiple_of(3))),
    ]
}

fn called(name: &str, values: &[&str]) -> Called {
    let mut call = Called {
        name: name.into(),
        ..Called::default()
    };
    if name == "practice" {
        call.entry = Entry::Practice;
    }
    if name.starts_with("marked") {
        call.marking = Some(Marking::default());
    }
    for value in values {
        let (name, value) = value.split_once('=').expect("NAME=VALUE");
        let words: Vec<&str> = value.split(',').filter(|w| !w.is_empty()).collect();
        let marking = call.marking.as_mut();
        match (name, marking) {
            ("size", _) => call.size = number(value) as u32,
            ("set", _) => call.entry = Entry::Limited(set(&words)),
            ("cells", _) => {
                (call.cell_numbers, call.cell_count) = (number(words[0]), number(words[1]))
            }
            ("ring", _) => call.ring = whole(&words),
            ("chain", _) => call.chain = whole(&words),
            ("kinds", Some(m)) => m.kinds = words.iter().map(|w| number(w) as u8).collect(),
            ("snaps", Some(m)) => m.snaps = words.iter().map(|w| double(w)).collect(),
            ("outline", Some(m)) => m.outline = whole(&words),
            ("loops", Some(m)) => m.loops = words.iter().map(|w| number(w) as u32).collect(),
            _ => panic!("no such value of {}: {name}", call.name),
        }
    }
    call
}

fn whole(words: &[&str]) -> Vec<i32> {
    let parsed = words.iter().map(|w| w.parse().expect("a coordinate"));
    parsed.collect()
}

impl Called {
    /// Its ring and chain as points, unless one has half a point more, which
    /// is refused with 1.
    pub fn job(&self) -> Option<Job> {
        let even = |l: &[i32]| l.len().is_multiple_of(2);
        let points = |l: &[i32]| l.chunks_exact(2).map(|p| [p[0], p[1]]).collect();
        (even(&self.ring) && even(&self.chain)).then(|| Job {
            ring: points(&self.ring),
            chain: points(&self.chain),
            size: self.size,
        })
    }

    /// The same as a case of Card 13.
    pub fn case(&self) -> Case {
        Case {
            ring: self.ring.clone(),
            chain: self.chain.clone(),
            size: self.size,
        }
    }
}

impl Lent {
    pub fn node(&mut self, place: usize, [x, y]: [f64; 2]) {
        self.numbers[2 * place..2 * place + 2].copy_from_slice(&[x, y]);
    }

    /// The list as the Rust has it; of a used count above the places, all.
    fn list(&self) -> NodeList {
        let nodes: Vec<[f64; 2]> = self.numbers.chunks_exact(2).map(|p| [p[0], p[1]]).collect();
        let held = nodes.len().min(self.used);
        NodeList {
            rims: self.rims.clone(),
            ..NodeList::holding(nodes.len(), self.used, &nodes[..held])
        }
    }

    /// A call by the Rust, which leaves its nodes, marks and count here.
    pub fn run(&mut self, call: &Called) -> Run {
        let places = call.cell_numbers / 4;
        let Some(job) = call.job() else {
            return refused(1, self.used, places, call.cell_count);
        };
        let mut list = self.list();
        let asked = Asked {
            entry: call.entry,
            job: &job,
            marking: call.marking.as_ref(),
        };
        let run = run_with(asked, &mut list, places, call.cell_count);
        for (place, node) in list.nodes.points.iter().enumerate() {
            self.node(place, *node);
        }
        (self.used, self.rims) = (list.used, list.rims);
        run
    }
}

/// A call that leaves all as found.
fn refused(code: u8, used: usize, places: usize, cell_count: usize) -> Run {
    Run {
        answer: Answer {
            code,
            nodes: used,
            cells: cell_count,
            ..Answer::default()
        },
        pieces: Vec::new(),
        cells: vec![UNTOUCHED; places],
        nodes_before: used,
        cells_before: cell_count,
    }
}

/// The detailed form of supplied calls, each run by one side.
pub fn all(
    text: &str,
    run: impl Fn(&mut Lent, &Called) -> Run,
    smallest: impl Fn(&Case) -> Least,
) -> String {
    let (mut out, mut number) = (String::new(), 0);
    let mut lent = Lent::default();
    for step in read(text) {
        match step {
            Step::List(list) => {
                lent = list;
                out.push_str("list\n");
            }
            Step::Node(place, node) => lent.node(place, node),
            Step::Rim(place, mark) => lent.rims[place] = mark,
            Step::Call(call) => {
                let before = lent.rims.clone();
                let run = run(&mut lent, &call);
                let name = format!("call {number} {}", call.name);
                detail(&mut out, &name, &run, &before, &lent);
                if matches!(run.answer.code, 0 | 8) {
                    line(&mut out, format_args!("places {}", places(&run.cells)));
                }
                number += 1;
            }
            Step::Smallest(call) => {
                let [code, refusal, choice, points] = smallest(&call.case());
                line(
                    &mut out,
                    format_args!("smallest {number} code {code} refusal {refusal} choice {choice} points {points}"),
                );
                number += 1;
            }
        }
    }
    out
}

/// The same of blocks, over one list of the program's.
pub fn of_blocks(bytes: &[u8], run: impl Fn(&mut Lent, &Called) -> Run) -> String {
    let mut out = String::new();
    let mut lent = Lent {
        numbers: vec![f64::INFINITY; 2 * NODE_PLACES],
        used: 0,
        rims: vec![NO_MARK; NODE_PLACES],
    };
    for (number, job) in Jobs::new(bytes).enumerate() {
        match job {
            Ok(job) => {
                let before = lent.rims.clone();
                let run = run(&mut lent, &of_job(&job));
                detail(&mut out, &format!("ring {number}"), &run, &before, &lent);
            }
            Err(r) => line(
                &mut out,
                format_args!("block {} refused {}", r.block, r.code),
            ),
        }
    }
    out
}

/// A call of the examination entry with the program's cell list.
fn of_job(job: &Job) -> Called {
    Called {
        size: job.size,
        ring: job.ring.concat(),
        chain: job.chain.concat(),
        cell_numbers: 4 * CELL_PLACES,
        ..Called::default()
    }
}

/// What a call returned, new nodes with their marks, marks that changed, cells.
pub fn detail(out: &mut String, name: &str, run: &Run, before: &[u8], lent: &Lent) {
    answer_line(out, name, &run.answer, run.nodes_before);
    if !matches!(run.answer.code, 0 | 8) {
        return;
    }
    for i in run.nodes_before..run.answer.nodes {
        let [x, y] = [lent.numbers[2 * i], lent.numbers[2 * i + 1]].map(f64::to_bits);
        line(
            out,
            format_args!("node {i} {x:016x} {y:016x} {}", lent.rims[i]),
        );
    }
    for i in 0..run.nodes_before {
        if before[i] != lent.rims[i] {
            line(out, format_args!("rim {i} {}", lent.rims[i]));
        }
    }
    if run.answer.code == 0 {
        for [a, b, c, d] in &run.cells[run.cells_before..run.answer.cells] {
            line(out, format_args!("cell {a} {b} {c} {d}"));
        }
    }
}

/// Runs of places with the same sign: `c` written, `z` zeroed, `-` as found.
fn places(cells: &[Cell]) -> String {
    let signs: Vec<char> = forms::places(cells).chars().collect();
    let runs = signs.chunk_by(|a, b| a == b);
    let words: Vec<String> = runs.map(|r| format!("{}{}", r[0], r.len())).collect();
    words.join(" ")
}

/// Card 11's three answers: eight whole numbers a line, the ends of two
/// segments in units.
pub fn crossings(text: &str) -> String {
    let answer = |line: &str| {
        let ends = whole(&line.split_whitespace().collect::<Vec<&str>>());
        let ends = [0, 1, 2, 3].map(|k| [ends[2 * k], ends[2 * k + 1]]);
        let named = ["apart", "touching", "crossing"][meeting::answer(ends) as usize];
        format!("{named}\n")
    };
    text.lines().map(answer).collect()
}
