//! The kinds of rings, each a function from its random numbers and the ring's
//! place in the file to a job.

use crate::drawn;
use crate::exact;
use crate::job::{Job, POINTS};
use crate::known;
use crate::marked;
use crate::place::{extent, place, place_at, size, turned_about, Ring, FARTHEST};
use crate::random::Random;
use crate::shapes;

type Kind = fn(&mut Random, usize) -> Job;

/// Every kind with what it is for.
pub const KINDS: [(&str, Kind, &str); 23] = [
    (
        "trials",
        known::trial,
        "the rings for trial and the rings that tell, in turn",
    ),
    ("stars", stars, "points at rising angles, 3 to 60"),
    ("combs", combs, "bars with teeth"),
    ("spirals", spirals, "strips that wind inwards"),
    ("saws", saws, "bars with a saw on one side"),
    (
        "runs",
        runs,
        "collinear and nearly collinear runs of points",
    ),
    ("near", near, "near-duplicates at sizes 1,220 to 2,048 mm"),
    (
        "touching",
        touching,
        "slits, lobes through one point, repeated corners",
    ),
    ("scatter", scatter, "points anywhere, most of them crossing"),
    ("little", little, "points of a grid of a few units"),
    (
        "chains",
        marked::chains,
        "chains in both senses, with zero steps",
    ),
    (
        "far",
        marked::far,
        "snap points at and beyond the share of the chord",
    ),
    (
        "retries",
        marked::retries,
        "flat rings whose snapped cells fold",
    ),
    (
        "turned",
        marked::turned,
        "images of rings with a turned part, with marks",
    ),
    ("ties", ties, "rings with equal worst corners"),
    ("cuts", cuts, "rings that need 32 cuts and more"),
    (
        "angles",
        exact::angles,
        "steps at the limits of 12, 20 and 25 degrees",
    ),
    (
        "rounding",
        exact::rounding,
        "rings near those where rounding decides",
    ),
    ("flat", exact::flat, "cells that are flat but for rounding"),
    (
        "limits",
        limits,
        "coordinates at the limits and past them, wrong counts and sizes",
    ),
    (
        "shared",
        marked::shared,
        "one small sheet: rings that meet the nodes of earlier ones",
    ),
    ("full", full, "large rings, which fill the node list"),
    ("mix", mix, "all of these"),
];

/// A job with any chain and size for this ring.
fn with_chain(random: &mut Random, mut ring: Ring) -> Job {
    ring.truncate(POINTS);
    let chain = drawn::any(random, &ring);
    Job {
        chain,
        size: size(random),
        ring,
    }
}

fn points(random: &mut Random) -> usize {
    match random.below(4) {
        0 => 3 + random.below(4),
        1 => 4 + random.below(12),
        2 => 3 + random.below(58),
        _ => random.pick(&[3, 4, 5, 6, 8, 34, 35, 36, 59, 60]),
    }
}

fn stars(random: &mut Random, _: usize) -> Job {
    let inner = random.pick(&[0.1, 0.4, 0.8, 0.97]);
    let count = points(random);
    let outline = shapes::star(random, count, inner);
    let ring = place(random, &outline);
    with_chain(random, ring)
}

fn combs(random: &mut Random, _: usize) -> Job {
    let teeth = 1 + random.below(14);
    let outline = shapes::comb(random, teeth);
    let ring = place(random, &outline);
    with_chain(random, ring)
}

fn spirals(random: &mut Random, _: usize) -> Job {
    let steps = 3 + random.below(28);
    let outline = shapes::spiral(random, steps);
    let ring = place(random, &outline);
    with_chain(random, ring)
}

fn saws(random: &mut Random, _: usize) -> Job {
    let teeth = 1 + random.below(28);
    let outline = shapes::saw(random, teeth);
    let ring = place(random, &outline);
    with_chain(random, ring)
}

fn runs(random: &mut Random, _: usize) -> Job {
    let count = points(random).max(8);
    let outline = shapes::runs(random, count);
    let mut ring = place(random, &outline);
    let reach = random.pick(&[0, 0, 1, 1, 2]);
    shake(random, &mut ring, reach);
    with_chain(random, ring)
}

/// Moves about half the points by at most `reach` units each way.
fn shake(random: &mut Random, ring: &mut Ring, reach: i64) {
    for c in ring.iter_mut().flatten() {
        if random.one_in(2) {
            let moved = i64::from(*c) + random.between(-reach, reach);
            *c = moved.clamp(-FARTHEST, FARTHEST) as i32;
        }
    }
}

fn near(random: &mut Random, _: usize) -> Job {
    let count = 3 + random.below(14);
    let outline = shapes::star(random, count, 0.5);
    let extent = random.pick(&[2, 3, 5, 9, 40, 4_000, 5_000_000]);
    let base = place_at(random, &outline, extent);
    let mut ring = Ring::new();
    for p in base {
        let copies = random.pick(&[1, 1, 2, 3]);
        let mut group = vec![p; copies];
        shake(random, &mut group, 2);
        ring.extend(group);
    }
    let sizes = [1_220, 1_221, 1_300, 1_500, 1_726, 1_727, 1_900, 2_048];
    Job {
        size: random.pick(&sizes),
        ..with_chain(random, ring)
    }
}

fn touching(random: &mut Random, _: usize) -> Job {
    let outline = match random.below(3) {
        0 => {
            let (outer, inner) = (3 + random.below(12), 3 + random.below(8));
            shapes::slit(random, outer, inner)
        }
        1 => {
            let (count, corners) = (2 + random.below(4), 2 + random.below(6));
            shapes::lobes(random, count, corners)
        }
        _ => {
            let count = 6 + random.below(10);
            shapes::star(random, count, 0.3)
        }
    };
    let mut ring = place(random, &outline);
    if random.one_in(3) {
        let (from, to) = (random.below(ring.len()), random.below(ring.len()));
        ring[to] = ring[from];
    }
    with_chain(random, ring)
}

fn scatter(random: &mut Random, _: usize) -> Job {
    let count = random.pick(&[3, 3, 4, 4, 5, 6, 9, 60]);
    let outline = shapes::scatter(random, count);
    let ring = place(random, &outline);
    with_chain(random, ring)
}

fn little(random: &mut Random, _: usize) -> Job {
    let count = 3 + random.below(9);
    let width = random.between(1, 7);
    let step = random.pick(&[1, 1, 1, 8, 8_192]) as i32;
    let mut at = || random.between(0, width) as i32 * step;
    let ring: Ring = (0..count).map(|_| [at(), at()]).collect();
    let ring = turned_about(random, ring);
    with_chain(random, ring)
}

fn ties(random: &mut Random, _: usize) -> Job {
    let corners = 1 + random.below(12);
    let outline = shapes::four_fold(random, corners);
    let ring = place(random, &outline);
    with_chain(random, ring)
}

fn cuts(random: &mut Random, _: usize) -> Job {
    let count = 30 + random.below(31);
    let outline = match random.below(3) {
        0 => shapes::star(random, count, 0.9),
        1 => shapes::spiral(random, count / 2),
        _ => shapes::wheel(random, count),
    };
    let extent = random.between(2_000, FARTHEST);
    let ring = place_at(random, &outline, extent);
    with_chain(random, ring)
}

/// For the practice paper: rings of 10 to 26 points that need up to 12 cuts and
/// more.
pub fn paper(random: &mut Random) -> Job {
    let count = 10 + random.below(17);
    let outline = match random.below(2) {
        0 => shapes::star(random, count, 0.9),
        _ => shapes::wheel(random, count),
    };
    let extent = random.between(2_000, FARTHEST);
    let ring = place_at(random, &outline, extent);
    with_chain(random, ring)
}

fn limits(random: &mut Random, _: usize) -> Job {
    let far = FARTHEST as i32;
    let edge = [far, -far, far, -far, far - 1, 1 - far, 0];
    let count = random.pick(&[3, 4, 4, 5, 6, 60]);
    let mut ring: Ring = (0..count)
        .map(|_| [random.pick(&edge), random.pick(&edge)])
        .collect();
    ring = turned_about(random, ring);
    let mut job = with_chain(random, ring);
    match random.below(8) {
        0 => job.ring.truncate(random.below(3)),
        1 => job.size = random.pick(&[0, 2_049, 65_535]),
        2 => job.ring[0][random.below(2)] = past(random),
        3 if !job.chain.is_empty() => job.chain[0][random.below(2)] = past(random),
        _ => {}
    }
    job
}

fn past(random: &mut Random) -> i32 {
    let far = FARTHEST as i32;
    random.pick(&[far + 1, -far - 1, i32::MAX, i32::MIN])
}

fn full(random: &mut Random, _: usize) -> Job {
    let count = 20 + random.below(41);
    let outline = shapes::star(random, count, 0.7);
    let extent = extent(random).max(5_000);
    let ring = place_at(random, &outline, extent);
    with_chain(random, ring)
}

fn mix(random: &mut Random, place: usize) -> Job {
    let (_, kind, _) = random.pick(&KINDS[..KINDS.len() - 1]);
    kind(random, place)
}
