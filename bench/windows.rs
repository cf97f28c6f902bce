//! Whole jobs: a window of panes divided ring by ring over one growing list, on both sides, until the list is full.

use crate::call::{divide, Cell, NodeList, UNTOUCHED};
use crate::clock::{count, grouped, median, micro, percent, timed, untested};
use crate::differs;
use crate::forms::{CELL_PLACES, NODE_PLACES};
use crate::job::Job;
use crate::library::{call, cell_image, node_image};
use crate::panes::{Between, Window};
use crate::ring_divide::Row;
use std::hint::black_box;
use std::time::Instant;

/// Rows of the table of a growing list.
const PARTS: usize = 6;

/// A ring of a window: what the Rust answered, how many nodes stood before it, and its cells.
struct Ring {
    job: Job,
    used: usize,
    answer: Row,
    cells: Vec<Cell>,
}

/// What the calls of a ring took, run after run, and one pass over the used nodes right after it; the last on an empty list.
#[derive(Clone, Default)]
struct Times {
    rust: Vec<u64>,
    untested: Vec<u64>,
    ours: Vec<u64>,
    pass: Vec<u64>,
    empty: Vec<u64>,
}

/// The medians of these.
struct Cost {
    used: usize,
    rust: u64,
    untested: u64,
    ours: u64,
    pass: u64,
    empty: u64,
}

/// A window that was divided.
struct Divided {
    places: usize,
    points: String,
    used: usize,
    costs: Vec<Cost>,
}

pub fn tables(places: &[usize]) {
    let kinds = [Between::Each(2), Between::UpTo(5)];
    let done: Vec<Divided> = places
        .iter()
        .flat_map(|&p| kinds.map(|between| window(p, between)))
        .collect();
    println!("| places | points a pane | panes | used at the end | Rust | Rust, untested | divider | of the Rust | of the untested |");
    println!("|---:|---:|---:|---:|---:|---:|---:|---:|---:|");
    for job in &done {
        let sum = |f: fn(&Cost) -> u64| job.costs.iter().map(f).sum::<u64>();
        let (rust, untested, ours) = (sum(|c| c.rust), sum(|c| c.untested), sum(|c| c.ours));
        println!(
            "| {} | {} | {} | {} | {} | {} | {} | {} | {} |",
            count(job.places),
            job.points,
            count(job.costs.len()),
            count(job.used),
            milli(rust),
            milli(untested),
            milli(ours),
            percent(ours, rust),
            percent(ours, untested)
        );
    }
    println!();
    println!("| places | points a pane | used | Rust | Rust, untested | divider | on an empty list | one pass | empty and two passes |");
    println!("|---:|---:|---:|---:|---:|---:|---:|---:|---:|");
    for job in &done {
        growth(job);
    }
}

/// Nanoseconds as ms.
fn milli(ns: u64) -> String {
    let digits = if ns < 100_000_000 { 2 } else { 0 };
    grouped(&format!("{:.digits$}", ns as f64 / 1.0e6))
}

fn growth(job: &Divided) {
    for part in 0..PARTS {
        let some = share(&job.costs, part);
        let used = some.get(some.len() / 2).map_or(0, |c| c.used);
        let of = |f: fn(&Cost) -> u64| median(&mut some.iter().map(f).collect::<Vec<u64>>());
        let (pass, empty) = (of(|c| c.pass), of(|c| c.empty));
        println!(
            "| {} | {} | {} | {} | {} | {} | {} | {} | {} |",
            count(job.places),
            job.points,
            count(used),
            micro(of(|c| c.rust)),
            micro(of(|c| c.untested)),
            micro(of(|c| c.ours)),
            micro(empty),
            micro(pass),
            micro(empty + 2 * pass)
        );
    }
}

fn share<T>(all: &[T], part: usize) -> &[T] {
    &all[all.len() * part / PARTS..all.len() * (part + 1) / PARTS]
}

fn window(places: usize, between: Between) -> Divided {
    let (rings, list) = by_the_rust(places, Window::new(places, between));
    let runs = match places {
        0..=10_000 => 25,
        10_001..=100_000 => 5,
        _ => 1,
    };
    let mut times = vec![Times::default(); rings.len()];
    for _ in 0..runs {
        timed_rust(&rings, places, &mut times);
        timed_ours(&rings, &list, &mut times);
        on_empty_lists(&rings, &mut times);
    }
    Divided {
        places,
        points: between.points(),
        used: list.used,
        costs: rings.iter().zip(&mut times).map(cost).collect(),
    }
}

fn cost((ring, t): (&Ring, &mut Times)) -> Cost {
    Cost {
        used: ring.used,
        rust: median(&mut t.rust),
        untested: median(&mut t.untested),
        ours: median(&mut t.ours),
        pass: median(&mut t.pass),
        empty: median(&mut t.empty),
    }
}

/// What the Rust answers, ring by ring, until the list is full; and the list.
fn by_the_rust(places: usize, window: Window) -> (Vec<Ring>, NodeList) {
    let mut list = NodeList::empty(places);
    let mut rings = Vec::new();
    for job in window.panes() {
        let used = list.used;
        let mut cells = [UNTOUCHED; CELL_PLACES];
        let (answer, _) = divide(&job, &mut list, &mut cells, 0);
        if answer.code == 4 {
            return (rings, list);
        }
        let written = cells.iter().position(|c| *c == UNTOUCHED);
        rings.push(Ring {
            job,
            used,
            answer: (&answer).into(),
            cells: cells[..written.unwrap_or(CELL_PLACES)].to_vec(),
        });
    }
    panic!("the window is too small for {places} places")
}

/// The whole job anew by the Rust, its pool kept throughout, with the tests and without.
fn timed_rust(rings: &[Ring], places: usize, times: &mut [Times]) {
    let mut list = NodeList::empty(places);
    for (ring, times) in rings.iter().zip(times.iter_mut()) {
        let mut cells = [UNTOUCHED; CELL_PLACES];
        times
            .rust
            .push(timed(|| divide(&ring.job, &mut list, &mut cells, 0)));
    }
    let mut list = NodeList::empty(places);
    for (ring, times) in rings.iter().zip(times.iter_mut()) {
        times.untested.push(untested(&ring.job, &mut list));
    }
}

/// The whole job anew by the library: each row, new node and cell place compared, and at the end the whole list with its marks.
/// After each call one pass over the nodes that it found in use is timed, so that both find the list as the other has left it,
/// and the processor at the same pace.
fn timed_ours(rings: &[Ring], list: &NodeList, times: &mut [Times]) {
    let mut image = node_image(&NodeList::empty(list.places), 0);
    for (ring, times) in rings.iter().zip(times) {
        let mut cells = cell_image(CELL_PLACES, 0);
        let mut expected = cells.clone();
        let start = Instant::now();
        let returned = black_box(call(&ring.job, image.lent(ring.used, &mut cells, 0)));
        times.ours.push(start.elapsed().as_nanos() as u64);
        times.pass.push(pass(&image.nodes.list()[..2 * ring.used]));
        expected.list()[..4 * ring.cells.len()].copy_from_slice(&ring.cells.concat());
        if returned != ring.answer {
            differs(
                &ring.job,
                &format!("{returned:?}, the Rust {:?}", ring.answer),
            )
        }
        if cells != expected {
            differs(&ring.job, "a cell place")
        }
        same_nodes(
            ring,
            list,
            image.nodes.list(),
            ring.used..ring.answer.nodes as usize,
        );
    }
    if let Some(last) = rings.last() {
        same_nodes(last, list, image.nodes.list(), 0..list.used);
        if image.rims.list() != list.rims {
            differs(&last.job, "a mark")
        }
    }
}

/// Each ring by the library on a list of its own.
fn on_empty_lists(rings: &[Ring], times: &mut [Times]) {
    for (ring, times) in rings.iter().zip(times) {
        let mut image = node_image(&NodeList::empty(NODE_PLACES), 0);
        let mut cells = cell_image(CELL_PLACES, 0);
        times
            .empty
            .push(timed(|| call(&ring.job, image.lent(0, &mut cells, 0))));
    }
}

fn same_nodes(ring: &Ring, list: &NodeList, ours: &[f64], places: std::ops::Range<usize>) {
    let new = list.nodes.points[places.clone()].iter().flatten();
    let mut pairs = new.zip(&ours[2 * places.start..]);
    if !pairs.all(|(a, b)| a.to_bits() == b.to_bits()) {
        differs(&ring.job, "a node")
    }
}

/// One pass over the used nodes: how many are in a box.
fn pass(nodes: &[f64]) -> u64 {
    let (lo, hi) = (black_box(-3.0), black_box(3.0));
    let inside = |p: &[f64]| u64::from((lo <= p[0]) & (p[0] <= hi) & (lo <= p[1]) & (p[1] <= hi));
    timed(|| black_box(nodes).chunks_exact(2).map(inside).sum::<u64>())
}
