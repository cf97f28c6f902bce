//! The split alone, ours beside the Rust's, on the same cleaned, simple, marked
//! rings. bench/split builds it and runs it: split FILE.., each file blocks of
//! one kind, with the kind as its name.
//!
//! Each clock starts with a ring that stands ready and ends when every corner
//! of the pieces, and its mark, has been looked at; both must have seen the
//! same. The Rust's ring is ready as its Poly, and its pieces are freed outside
//! the clock. Ours comes as flat lists, as a caller lends them: the points and
//! marks are made of them inside the clock.

include!("../oracle/shared.rs");

#[allow(dead_code)]
mod clock;
mod notes;

use blocks::Jobs;
use call::{in_mm, in_units, NodeList};
use clock::{both, count, median, REPEATS};
use forms::{run, CELL_PLACES, NODE_PLACES};
use job::Job;
use stage::Poly;
use std::hint::black_box;
use std::path::Path;
use std::time::Instant;

#[link(name = "timed", kind = "static")]
extern "C" {
    fn timed_split(ring: *const i32, ring_len: usize, marks: *const f64, marks_len: usize) -> u64;
}

fn main() {
    println!("| kind | rings | cuts a ring | Rust | split |");
    println!("|---|---:|---:|---|---|");
    for file in std::env::args().skip(1) {
        let bytes = std::fs::read(&file).expect("the blocks can be read");
        let rings: Vec<Poly> = Jobs::new(&bytes).flatten().filter_map(ring).collect();
        let (mut rust, mut ours, mut cuts) = (Vec::new(), Vec::new(), 0);
        for ring in &rings {
            let times = sides(ring);
            rust.push(times.rust);
            ours.push(times.ours);
            cuts += times.cuts;
        }
        let kind = Path::new(&file).file_stem().expect("a name").display();
        println!(
            "| {kind} | {} | {:.1} | {} | {} |",
            count(rings.len()),
            cuts as f64 / rings.len() as f64,
            both(&mut rust),
            both(&mut ours)
        );
    }
}

/// The cleaned, marked ring of a job, if it reaches the split: no refusal, or
/// only that of a cell that fails.
fn ring(job: Job) -> Option<Poly> {
    let mut list = NodeList::empty(NODE_PLACES);
    if !matches!(run(&job, &mut list, CELL_PLACES, 0).answer.code, 0 | 8) {
        return None;
    }
    let (simplified, run_mids) = stage::simplify_chain(&in_mm(&job.chain));
    let points = stage::cleaned(&in_mm(&job.ring), f64::from(job.size)).ok()?;
    Some(stage::marked(points, &simplified, &run_mids))
}

struct Times {
    rust: u64,
    ours: u64,
    cuts: usize,
}

/// Both sides in turn, and the medians.
fn sides(ring: &Poly) -> Times {
    let units = |p: &[f64; 2]| in_units(*p).map(|u| i32::try_from(u).expect("on the sheet"));
    let points: Vec<i32> = ring.points.iter().flat_map(units).collect();
    let straight = [f64::INFINITY; 2];
    let snaps = ring.snap.iter().map(|s| s.unwrap_or(straight));
    let marks: Vec<f64> = snaps.flatten().collect();
    let (mut rust, mut ours, mut cuts) = ([0; REPEATS], [0; REPEATS], 0);
    for (rust, ours) in rust.iter_mut().zip(&mut ours) {
        let start = Instant::now();
        let pieces = stage::split_bad_vertices(black_box(ring)).expect("the split never fails");
        let owed = seen(&pieces);
        *rust = start.elapsed().as_nanos() as u64;

        let start = Instant::now();
        // Each pointer comes with the length of its own list. The points are on
        // the sheet, 3 to 60, or the ring would have been refused.
        let got =
            unsafe { timed_split(points.as_ptr(), points.len(), marks.as_ptr(), marks.len()) };
        *ours = start.elapsed().as_nanos() as u64;

        assert_eq!(got, owed, "the pieces differ: {ring:?}");
        cuts = pieces.len() - 1;
    }
    Times {
        rust: median(&mut rust),
        ours: median(&mut ours),
        cuts,
    }
}

/// Cuts times 65,536, and the places of the corners whose x is not below 0,
/// and of those whose snap points' x is not, added up.
fn seen(pieces: &[Poly]) -> u64 {
    let mut sum = (pieces.len() as u64 - 1) * 65_536;
    let corners = pieces.iter().flat_map(|p| p.points.iter().zip(&p.snap));
    for (place, (point, snap)) in (1..).zip(corners) {
        if point[0] >= 0.0 {
            sum += place;
        }
        if snap.is_some_and(|s| s[0] >= 0.0) {
            sum += place;
        }
    }
    sum
}
