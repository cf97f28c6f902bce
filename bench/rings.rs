//! Rings on lists in use: an empty list, nodes far from the ring, and nodes of rings around it.

use crate::call::{divide, Asked, NodeList, FARTHEST, UNTOUCHED};
use crate::clock::{both, count, mean, median, percent, rust, timed, untested, REPEATS};
use crate::differs;
use crate::forms::{CELL_PLACES, NODE_PLACES};
use crate::job::{Entry, Job};
use crate::library::{call, cell_image, compared, node_image};
use crate::read;

/// Used places of the lists in use.
const USED: [usize; 3] = [250, 750, 1_290];

/// What the calls of all rings took: the Rust, the Rust untested, and the library.
#[derive(Default)]
pub struct Sides {
    pub rust: Vec<u64>,
    pub untested: Vec<u64>,
    pub ours: Vec<u64>,
}

impl Sides {
    /// Compares the answers, and adds the median of several calls on each side.
    pub fn add(&mut self, job: &Job, list: &NodeList) {
        agreed(job, list);
        self.rust.push(usual(|| rust(job, &mut list.clone())));
        self.ours.push(usual(|| ours(job, list)));
    }

    /// The same, and the Rust untested where the ring passes refusals 1 to 4.
    fn add_all(&mut self, job: &Job, list: &NodeList) {
        self.add(job, list);
        let passes = !matches!(
            divide(job, &mut list.clone(), &mut [UNTOUCHED; CELL_PLACES], 0)
                .0
                .code,
            1..=4
        );
        let last = *self.rust.last().expect("a time");
        self.untested.push(if passes {
            usual(|| untested(job, &mut list.clone()))
        } else {
            last
        });
    }
}

/// The median of several calls.
fn usual(call: impl Fn() -> u64) -> u64 {
    median(&mut (0..REPEATS).map(|_| call()).collect::<Vec<u64>>())
}

/// A call of the library.
fn ours(job: &Job, list: &NodeList) -> u64 {
    let (mut image, mut cells) = (node_image(list, 0), cell_image(CELL_PLACES, 0));
    timed(|| call(job, image.lent(list.used, &mut cells, 0)))
}

fn agreed(job: &Job, list: &NodeList) {
    let (mut list, mut image) = (list.clone(), node_image(list, 0));
    let asked = Asked::of(Entry::Examination, job);
    if let Err(text) = compared(asked, &mut list, &mut image, CELL_PLACES, 0, 0) {
        differs(job, &text)
    }
}

pub fn table(files: &[&str]) {
    println!("| kind | used nodes | of rings around | Rust | Rust, untested | divider | of the Rust | of the untested |");
    println!("|---|---:|---:|---|---|---|---|---|");
    for file in files {
        let (kind, jobs) = read(file);
        row(
            &kind,
            "0",
            0,
            &mut sides(&jobs, &|_| (NodeList::empty(NODE_PLACES), 0)),
        );
        for used in USED {
            let name = format!("{}, far", count(used));
            row(&kind, &name, 0, &mut sides(&jobs, &|_| (far(used), 0)));
        }
        for used in USED {
            let mut around = 0;
            let mut all = Sides::default();
            for job in &jobs {
                let (list, nodes) = neighbours(job, used);
                around += nodes;
                all.add_all(job, &list);
            }
            row(
                &kind,
                &format!("{}, around", count(used)),
                around / jobs.len().max(1),
                &mut all,
            );
        }
    }
}

fn sides(jobs: &[Job], list: &dyn Fn(&Job) -> (NodeList, usize)) -> Sides {
    let mut all = Sides::default();
    for job in jobs {
        all.add_all(job, &list(job).0);
    }
    all
}

fn row(kind: &str, used: &str, around: usize, all: &mut Sides) {
    let (rust, untested, ours) = (
        both(&mut all.rust),
        both(&mut all.untested),
        both(&mut all.ours),
    );
    let of = |other: &mut Vec<u64>, ours: &mut Vec<u64>| {
        let means = percent(mean(ours), mean(other));
        format!("{means} / {}", percent(median(ours), median(other)))
    };
    let (first, second) = (
        of(&mut all.rust, &mut all.ours),
        of(&mut all.untested, &mut all.ours),
    );
    println!(
        "| {kind} | {used} | {} | {rust} | {untested} | {ours} | {first} | {second} |",
        count(around)
    );
}

/// A list with `used` nodes that no ring asks for, in a corner of the sheet.
pub fn far(used: usize) -> NodeList {
    NodeList::holding(NODE_PLACES, used, &far_nodes(used))
}

fn far_nodes(used: usize) -> Vec<[f64; 2]> {
    let node = |k: usize| {
        [
            1000.0 + (k % 1_900) as f64 / 80.0 + 1.0e-5,
            1023.0 - k as f64 / 90.0 + 1.0e-5,
        ]
    };
    (0..used).map(node).collect()
}

/// A list with `used` nodes, first those of the ring itself moved by its width and height to each side in turn, as far as
/// the sheet goes; the rest far from it. And how many are of moved rings.
fn neighbours(job: &Job, used: usize) -> (NodeList, usize) {
    let mut around = NodeList::empty(65_535);
    'steps: for radius in 1i64..=12 {
        for (x, y) in square(radius) {
            if around.nodes.points.len() >= used {
                break 'steps;
            }
            if let Some(moved) = moved(job, x, y) {
                let mut cells = [UNTOUCHED; CELL_PLACES];
                divide(&moved, &mut around, &mut cells, 0);
            }
        }
    }
    let count = around.nodes.points.len().min(used);
    let mut nodes = around.nodes.points[..count].to_vec();
    nodes.extend_from_slice(&far_nodes(used - count));
    (NodeList::holding(NODE_PLACES, used, &nodes), count)
}

/// The steps at this distance.
fn square(radius: i64) -> impl Iterator<Item = (i64, i64)> {
    let all = move |x| (-radius..=radius).map(move |y| (x, y));
    (-radius..=radius)
        .flat_map(all)
        .filter(move |(x, y)| x.abs().max(y.abs()) == radius)
}

/// The job moved by so many times its ring's width and height, where that stays on the sheet.
fn moved(job: &Job, x: i64, y: i64) -> Option<Job> {
    let step = |axis: usize| {
        let values = || job.ring.iter().map(|p| i64::from(p[axis]));
        values().max().unwrap_or(0) - values().min().unwrap_or(0)
    };
    let by = [x * step(0), y * step(1)];
    let all = |points: &[[i32; 2]]| -> Option<Vec<[i32; 2]>> {
        let far = i64::from(FARTHEST);
        let one = |p: &[i32; 2]| {
            let q = [i64::from(p[0]) + by[0], i64::from(p[1]) + by[1]];
            q.iter()
                .all(|c| c.abs() <= far)
                .then_some(q.map(|c| c as i32))
        };
        points.iter().map(one).collect()
    };
    Some(Job {
        ring: all(&job.ring)?,
        chain: all(&job.chain)?,
        size: job.size,
    })
}
