//! Marks given in place of a chain: the tests that the card adds, and the
//! marked ring, around what is cut from the Rust.

use crate::call::{in_mm, FARTHEST, FARTHEST_MM};
use crate::job::{Marking, POINTS};
use crate::outline::{nearest_boundary_point, placed, point_segment_distance, Domain};
use crate::stage::Poly;

/// Points of a loop at least.
const LOOP: u64 = 3;

/// Refusals 13 and 14 of the marks of a ring of `n` points, or 0.
pub fn refusal(n: usize, marking: &Marking) -> u8 {
    if marks_out(n, marking) {
        return 13;
    }
    let called = marking.kinds.contains(&2);
    if called && outline_out(&marking.outline, &marking.loops) {
        return 14;
    }
    0
}

fn marks_out(n: usize, marking: &Marking) -> bool {
    if marking.kinds.len() != n || marking.snaps.len() != 2 * n {
        return true;
    }
    let out = |c: &f64| !(c.is_finite() && c.abs() <= FARTHEST_MM);
    let mut marks = marking.kinds.iter().zip(marking.snaps.chunks(2));
    marks.any(|(&kind, p)| kind > 2 || kind == 1 && p.iter().any(out))
}

fn outline_out(outline: &[i32], loops: &[u32]) -> bool {
    let points = outline.len() / 2;
    let within = |c: &i32| (-FARTHEST..=FARTHEST).contains(c);
    outline.len() % 2 != 0
        || points == 0
        || points > POINTS
        || loops.iter().any(|&m| u64::from(m) < LOOP)
        || loops.iter().map(|&m| u64::from(m)).sum::<u64>() != points as u64
        || !outline.iter().all(within)
}

/// The outline as the Rust has it: the first loop is the rim.
fn domain(marking: &Marking) -> Domain {
    let points: Vec<[i32; 2]> = marking.outline.chunks(2).map(|p| [p[0], p[1]]).collect();
    let points = in_mm(&points);
    let mut from = 0;
    let mut loops = marking.loops.iter().map(|&m| {
        from += m as usize;
        points[from - m as usize..from].to_vec()
    });
    Domain {
        outer: loops.next().unwrap_or_default(),
        holes: loops.collect(),
    }
}

/// The places that the Rust's cleaning leaves. It is run on points that carry
/// their place with them.
fn kept(ring: &[[f64; 2]], tol: f64) -> Vec<usize> {
    let carrying: Vec<[f64; 3]> = ring
        .iter()
        .enumerate()
        .map(|(i, p)| [p[0], p[1], i as f64])
        .collect();
    let left = placed::clean_polygon(&carrying, tol);
    left.iter().map(|p| p[2] as usize).collect()
}

/// The cleaned ring, whose points are given, with the marks that survive.
pub fn marked(ring: &[[i32; 2]], size: u32, points: Vec<[f64; 2]>, marking: &Marking) -> Poly {
    let own = in_mm(ring);
    let places = kept(&own, 1.0e-7 * f64::from(size));
    assert!(places.iter().map(|&i| own[i]).eq(points.iter().copied()));
    let called = marking.kinds.contains(&2);
    let domain = called.then(|| domain(marking));
    let mark = |i: usize| {
        let next = (i + 1) % own.len();
        if !places.contains(&next) {
            return None;
        }
        match marking.kinds[i] {
            1 => Some([marking.snaps[2 * i], marking.snaps[2 * i + 1]]),
            2 => domain.as_ref().map(|d| {
                let (a, b) = (own[i], own[next]);
                nearest_boundary_point(d, [0.5 * (a[0] + b[0]), 0.5 * (a[1] + b[1])])
            }),
            _ => None,
        }
    };
    let snap: Vec<Option<[f64; 2]>> = places.iter().map(|&i| mark(i)).collect();
    Poly {
        ring_edge: vec![true; points.len()],
        points,
        chain_edge: snap.iter().map(Option::is_some).collect(),
        snap,
    }
}

/// What the marks that snap to an outline met: how many were sought, with equal
/// distances, at distance 0, on a hole, on a segment of no length.
#[derive(Default)]
pub struct Met {
    pub sought: usize,
    pub ties: usize,
    pub on: usize,
    pub holes: usize,
    pub flat: usize,
}

impl Met {
    /// Adds the marks of a ring that was not refused before it was cleaned.
    pub fn add(&mut self, ring: &[[i32; 2]], marking: &Marking) {
        if !marking.kinds.contains(&2) {
            return;
        }
        let (own, domain) = (in_mm(ring), domain(marking));
        let segments = domain.segments();
        for (i, _) in marking.kinds.iter().enumerate().filter(|(_, k)| **k == 2) {
            let (a, b) = (own[i], own[(i + 1) % own.len()]);
            let p = [0.5 * (a[0] + b[0]), 0.5 * (a[1] + b[1])];
            let far = |s: &([f64; 2], [f64; 2])| point_segment_distance(p, s.0, s.1);
            let all: Vec<f64> = segments.iter().map(far).collect();
            let least = all.iter().copied().fold(f64::INFINITY, f64::min);
            let first = all.iter().position(|d| *d == least).unwrap_or(0);
            self.sought += 1;
            self.ties += usize::from(all.iter().filter(|d| **d == least).count() > 1);
            self.on += usize::from(least == 0.0);
            self.holes += usize::from(first >= domain.outer.len());
            self.flat += usize::from(segments[first].0 == segments[first].1);
        }
    }
}
