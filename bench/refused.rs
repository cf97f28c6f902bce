//! What a refused ring takes, by the number of the refusal.

use crate::call::{divide, NodeList, UNTOUCHED};
use crate::clock::{both, count, mean, median, percent};
use crate::forms::{CELL_PLACES, NODE_PLACES};
use crate::job::Job;
use crate::read;
use crate::rings::{far, Sides};

/// So many rings of each number at most.
const RINGS: usize = 500;

pub fn table(files: &[&str]) {
    let jobs: Vec<Job> = files.iter().flat_map(|file| read(file).1).collect();
    println!("| refusal | list | rings | Rust | divider | of the Rust |");
    println!("|---|---|---:|---|---|---|");
    let empty = NodeList::empty(NODE_PLACES);
    for code in [1, 2] {
        row(code, "empty", &jobs, &empty);
    }
    let mut beyond = far(1_290);
    beyond.used = NODE_PLACES + 1;
    row(3, "a used count above the places", &jobs, &beyond);
    row(
        3,
        "1,290 used nodes, the last not finite",
        &jobs,
        &last_not_finite(),
    );
    let mut full = far(1_290);
    full.places = 1_290;
    row(4, "1,290 used nodes, no place free", &jobs, &full);
    for code in [5, 6, 7, 8] {
        row(code, "empty", &jobs, &empty);
    }
    for code in [5, 6, 7, 8] {
        row(code, "1,290 used nodes, far", &jobs, &far(1_290));
    }
}

fn last_not_finite() -> NodeList {
    let mut nodes = far(1_290).nodes.points;
    nodes[1_289][1] = f64::NAN;
    NodeList::holding(NODE_PLACES, 1_290, &nodes)
}

/// The rings that are refused with this number on this list.
fn row(code: u8, name: &str, jobs: &[Job], list: &NodeList) {
    let refused = |job: &&Job| {
        let mut cells = [UNTOUCHED; CELL_PLACES];
        divide(job, &mut list.clone(), &mut cells, 0).0.code == code
    };
    let mut all = Sides::default();
    for job in jobs.iter().filter(refused).take(RINGS) {
        all.add(job, list);
    }
    let of = format!(
        "{} / {}",
        percent(mean(&all.ours), mean(&all.rust)),
        percent(median(&mut all.ours), median(&mut all.rust))
    );
    println!(
        "| {code} | {name} | {} | {} | {} | {of} |",
        count(all.ours.len()),
        both(&mut all.rust),
        both(&mut all.ours)
    );
}
