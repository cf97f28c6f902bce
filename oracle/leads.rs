//! Marks given in place of a chain: kinds, given points and outlines. An
//! outline follows the ring or stands at its edges, with holes, loops at equal
//! distances from a middle, through a middle, of no length, and touching.

use crate::job::{Job, Marking};
use crate::place::Ring;
use crate::random::Random;

/// The largest coordinate in units, and points of an outline at most.
const FARTHEST: i64 = 8_388_608;
const POINTS: usize = 60;

pub fn marking(random: &mut Random, job: &Job) -> Marking {
    let ring = &job.ring;
    let kinds: Vec<u8> = ring.iter().map(|_| random.pick(&[0, 0, 1, 2, 2])).collect();
    let mut snaps = Vec::new();
    for (i, &kind) in kinds.iter().enumerate() {
        snaps.extend(match kind {
            1 => given(random, middle(ring, i)),
            _ => junk(random),
        });
    }
    let loops = loops(random, ring);
    let mut marking = Marking {
        kinds,
        snaps,
        outline: loops.iter().flatten().flatten().copied().collect(),
        loops: loops.iter().map(|l| l.len() as u32).collect(),
    };
    if random.one_in(10) {
        spoil(random, &mut marking);
    }
    marking
}

fn held(p: [i64; 2]) -> [i32; 2] {
    p.map(|c| c.clamp(-FARTHEST, FARTHEST) as i32)
}

/// The middle of edge i and half its length, in units, rounded down.
fn middle(ring: &Ring, i: usize) -> ([i64; 2], i64) {
    let wide = |p: [i32; 2]| p.map(i64::from);
    let (a, b) = (wide(ring[i]), wide(ring[(i + 1) % ring.len()]));
    let reach = (a[0] - b[0]).abs().max((a[1] - b[1]).abs()) / 2;
    ([(a[0] + b[0]) / 2, (a[1] + b[1]) / 2], reach)
}

/// A point near a middle, now and then at it, far off, or at the sheet's end.
fn given(random: &mut Random, (m, reach): ([i64; 2], i64)) -> [f64; 2] {
    let far = random.pick(&[0.0, 1.0e-9, 0.1, 0.6, 0.9]) * reach as f64;
    let moved = m.map(|c| (c as f64 + random.within(-1.0, 1.0) * far) / 8192.0);
    match random.below(12) {
        0 => m.map(|c| (c as f64 + 0.5) / 8192.0),
        1 => [random.pick(&[-1024.0, 1024.0, -0.0]), moved[1]],
        2 => moved.map(|c| f64::from_bits(c.to_bits() ^ 1)),
        _ => moved,
    }
    .map(|c| c.clamp(-1024.0, 1024.0))
}

/// What stands beside a mark that has no given point: anything.
fn junk(random: &mut Random) -> [f64; 2] {
    [0, 1].map(|_| random.pick(&[0.0, f64::NAN, f64::INFINITY, -1.0e300, 1024.5, 3.25]))
}

fn loops(random: &mut Random, ring: &Ring) -> Vec<Vec<[i32; 2]>> {
    let mut loops = vec![rim(random, ring)];
    for _ in 0..random.below(5) {
        let hole = hole(random, ring);
        if loops.iter().map(Vec::len).sum::<usize>() + hole.len() <= POINTS {
            loops.push(hole);
        }
    }
    if random.one_in(6) {
        loops.rotate_left(1);
    }
    loops
}

/// The ring itself, moved a little, or every other of its points.
fn rim(random: &mut Random, ring: &Ring) -> Vec<[i32; 2]> {
    let (_, reach) = middle(ring, 0);
    let most = (reach / 3).max(1);
    let (dx, dy) = (random.between(-most, most), random.between(-most, most));
    let moved = |p: &[i32; 2]| held([i64::from(p[0]) + dx, i64::from(p[1]) + dy]);
    let all: Vec<[i32; 2]> = match random.below(4) {
        0 => ring.clone(),
        1 if ring.len() >= 6 => ring.iter().step_by(2).copied().collect(),
        2 => ring.iter().rev().map(moved).collect(),
        _ => ring.iter().map(moved).collect(),
    };
    all.into_iter().take(40).collect()
}

/// A loop at an edge's middle: a square about it, a triangle with a corner or a
/// side on it, one of no length, one that shares points with the ring.
fn hole(random: &mut Random, ring: &Ring) -> Vec<[i32; 2]> {
    let i = random.below(ring.len());
    let (m, reach) = middle(ring, i);
    let d = random.pick(&[1, 2, reach / 8, reach / 4, reach / 2, 1_000]);
    let at = |x: i64, y: i64| held([m[0] + x * d, m[1] + y * d]);
    let (a, b) = (ring[i], ring[(i + 1) % ring.len()]);
    match random.below(7) {
        0 => vec![at(-1, -1), at(1, -1), at(1, 1), at(-1, 1)],
        1 => vec![at(0, 0), at(2, 1), at(1, 2)],
        2 => vec![at(-1, 0), at(1, 0), at(0, 3)],
        3 => vec![at(1, 1); 3],
        4 => vec![a, b, at(1, 2), at(1, 2)],
        5 => vec![at(0, 1), at(0, 1), at(2, 1), at(-2, 1)],
        _ => vec![a, at(0, 0), b, at(2, -1)],
    }
}

/// One way to be refused: 13, or 14 where the outline is called for.
fn spoil(random: &mut Random, m: &mut Marking) {
    let beyond = f64::from_bits(1024.0f64.to_bits() + 1);
    let bad = random.pick(&[f64::NAN, f64::NEG_INFINITY, beyond, -beyond]);
    let at = random.below(m.kinds.len().max(1));
    match random.below(14) {
        0 => m.kinds.push(0),
        1 => drop(m.kinds.pop()),
        2 => m.snaps.push(0.0),
        3 => drop(m.snaps.pop()),
        4 if at < m.kinds.len() => m.kinds[at] = random.pick(&[3, 4, 128, 255]),
        5 if at < m.kinds.len() => {
            m.kinds[at] = 1;
            m.snaps[2 * at + random.below(2)] = bad;
        }
        6 => (m.outline, m.loops) = (Vec::new(), Vec::new()),
        7 => m.outline.push(0),
        8 => {
            m.outline.extend([0, 0, 1, 1]);
            m.loops.push(2);
        }
        9 => m.loops.push(3),
        10 => m.loops[0] = u32::MAX - random.below(3) as u32,
        11 => {
            let more = POINTS + 1 - m.outline.len() / 2;
            m.outline.extend(vec![5; 2 * more]);
            m.loops[0] += more as u32;
        }
        12 => m.outline[random.below(2)] = random.pick(&[8_388_609, -8_388_609, i32::MIN]),
        _ => m.loops.clear(),
    }
}
