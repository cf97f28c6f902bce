//! How often what matters happened in some blocks, each ring on an empty list
//! of the program's size; refusal 4 and met nodes also over one list.

use crate::blocks::Jobs;
use crate::call::{in_mm, NodeList};
use crate::forms::{line, run, Run, CELL_PLACES, NODE_PLACES};
use crate::job::Job;
use crate::notes;
use crate::stage::{self, Poly};
use crate::standin::limits;
use std::collections::BTreeMap;

type Census = BTreeMap<String, usize>;

pub fn all(bytes: &[u8]) -> String {
    let mut census = Census::new();
    let mut list = NodeList::empty(NODE_PLACES);
    for job in Jobs::new(bytes) {
        match job {
            Ok(job) => ring(&mut census, &job, &mut list),
            Err(r) => count(&mut census, &format!("block refused {:2}", r.code), 1),
        }
    }
    let mut out = String::new();
    for (name, times) in &census {
        line(&mut out, format_args!("{times:7} {name}"));
    }
    out
}

fn count(census: &mut Census, name: &str, times: usize) {
    if times > 0 {
        *census.entry(name.to_string()).or_default() += times;
    }
}

fn ring(census: &mut Census, job: &Job, list: &mut NodeList) {
    let shared = run(job, list, CELL_PLACES, 0);
    count(census, &format!("one list: code {}", shared.answer.code), 1);
    count(
        census,
        "one list: nodes met with other bits",
        notes::look().other_bits,
    );
    let run = run(job, &mut NodeList::empty(NODE_PLACES), CELL_PLACES, 0);
    count(census, &format!("code {}", run.answer.code), 1);
    count_notes(census);
    if run.answer.code == 0 {
        accepted(census, &run);
    }
    if matches!(run.answer.code, 0 | 5..) {
        cleaning(census, job);
    }
}

fn count_notes(census: &mut Census) {
    let n = notes::look();
    count(census, "snap: taken", n.near);
    count(census, "snap: too far", n.far);
    count(
        census,
        "snap: pieces with a far one and a taken one (trap)",
        n.far_and_near,
    );
    count(census, "cells: pieces saved by straight middles", n.saved);
    count(census, "cells: pieces failing again", n.failed_again);
    count(
        census,
        "cells: pieces failing again at another k",
        n.failed_elsewhere,
    );
    count(census, "cells: pieces with cells taken back", n.taken_back);
    count(
        census,
        "cells: pieces failing after a far snap, no retry",
        n.not_retried,
    );
    count(
        census,
        "split: parts with equal worst corners (trap)",
        n.ties,
    );
    count(census, "split: parts turned", n.turned);
    count(
        census,
        "split: parts turned with marks (trap)",
        n.turned_marked,
    );
    count(
        census,
        "split: pieces out because 32 cuts are spent",
        n.spent,
    );
    count(
        census,
        "split: rings with 32 cuts",
        usize::from(n.cuts == 32),
    );
    count(census, "split: rings with a cut", usize::from(n.cuts > 0));
    count(census, "nodes met with other bits", n.other_bits);
}

fn accepted(census: &mut Census, run: &Run) {
    count(
        census,
        "marks: rings with a mark",
        usize::from(run.answer.marked > 0),
    );
    let bad = |piece: &&Poly| {
        stage::polygon_interior_angles(&piece.points)
            .iter()
            .any(|&m| m > limits().corner)
    };
    let left = run.pieces.iter().filter(bad).count();
    count(
        census,
        "split: pieces of accepted rings with a bad corner",
        left,
    );
    let elsewhere = run
        .pieces
        .iter()
        .filter(|p| centroid_differs(&p.points))
        .count();
    count(
        census,
        "cells: pieces whose centroid is not the mean (trap)",
        elsewhere,
    );
}

fn cleaning(census: &mut Census, job: &Job) {
    let (ring, tol) = (in_mm(&job.ring), 1.0e-7 * f64::from(job.size));
    let cleaned = stage::clean_polygon(&ring, tol);
    let dropped = ring.len() - cleaned.len();
    count(
        census,
        "clean: rings with a point dropped",
        usize::from(dropped > 0),
    );
    let other = usize::from(one_by_one(&ring, tol) != cleaned);
    count(
        census,
        "clean: rings where one by one differs (trap)",
        other,
    );
}

/// Has the area centroid another key than the mean of the corners?
fn centroid_differs(p: &[[f64; 2]]) -> bool {
    let mut mean = [0.0; 2];
    for a in p {
        mean = [
            mean[0] + a[0] / p.len() as f64,
            mean[1] + a[1] / p.len() as f64,
        ];
    }
    stage::pack(centroid(p)) != stage::pack(mean)
}

pub fn centroid(p: &[[f64; 2]]) -> [f64; 2] {
    let (mut area, mut sum) = (0.0, [0.0; 2]);
    for (a, b) in p.iter().zip(p.iter().cycle().skip(1)) {
        let w = a[0] * b[1] - b[0] * a[1];
        area += w;
        sum = [
            sum[0] + (a[0] + b[0]) * w / 3.0,
            sum[1] + (a[1] + b[1]) * w / 3.0,
        ];
    }
    sum.map(|s| s / area)
}

/// The wrong cleaning: a collinear point goes at once, before the next is
/// looked at.
fn one_by_one(ring: &[[f64; 2]], tol: f64) -> Vec<[f64; 2]> {
    let mut p = ring.to_vec();
    loop {
        p.dedup_by(|next, last| stage::dist(*last, *next) <= tol);
        while p.len() > 1 && stage::dist(p[0], p[p.len() - 1]) <= tol {
            p.pop();
        }
        let n = p.len();
        let flat = (0..n).find(|&i| {
            let (prev, here, next) = (p[(i + n - 1) % n], p[i], p[(i + 1) % n]);
            stage::point_segment_distance(here, prev, next) <= tol
                && stage::dot(stage::sub(here, prev), stage::sub(next, here)) > 0.0
        });
        match flat {
            Some(i) if n > 3 => drop(p.remove(i)),
            _ => return p,
        }
    }
}
