//! Rings worked out to the unit: angles and snap points at the limits, exact
//! coincidences under rounding, edges that graze.

use crate::drawn;
use crate::job::Job;
use crate::known;
use crate::place::{doubled_area, size, turned_about, Ring, FARTHEST};
use crate::random::Random;

/// Tangents of 12, 20 and 25 degrees.
const TANGENT_12: f64 = 0.21255656167002213;
const TANGENT_20: f64 = 0.36397023426620236;
const TANGENT_25: f64 = 0.4663076581549986;

/// Two steps with that tangent between them, as near as doubles tell: about
/// one try in two hundred finds such a pair.
fn limit_steps(random: &mut Random, tangent: f64) -> [[i64; 2]; 2] {
    let mut steps = [[1, 0]; 2];
    for _ in 0..2_000 {
        let x = random.between(FARTHEST / 2, FARTHEST);
        let first = [x, random.between(0, x / 2)];
        let [a, b] = first.map(|c| c as f64);
        let [q, p] = nearest_fraction((b + a * tangent) / (a - b * tangent));
        let cross = (first[0] * p - first[1] * q) as f64;
        let dot = (first[0] * q + first[1] * p) as f64;
        steps = [first, [q, p]];
        if (cross / dot - tangent).abs() <= 1.2e-16 * tangent {
            break;
        }
    }
    steps
}

/// The last fraction p / q of the continued fraction of `x` within the limits.
fn nearest_fraction(x: f64) -> [i64; 2] {
    let (mut a, mut b) = ((x * (1u64 << 52) as f64) as i64, 1i64 << 52);
    let (mut last, mut now) = ([1, 0], [0, 1]);
    while b != 0 {
        let whole = a / b;
        (a, b) = (b, a % b);
        let next = [whole * now[0] + last[0], whole * now[1] + last[1]];
        if next[0] > FARTHEST || next[1] > FARTHEST {
            break;
        }
        (last, now) = (now, next);
    }
    now
}

/// A corner, a chain turn or a diagonal at a limit of the angles, to the last
/// bit or nearly so.
pub fn angles(random: &mut Random, _: usize) -> Job {
    let (ring, chain) = match random.below(4) {
        0 => (limit_corner(random, TANGENT_20).to_vec(), vec![]),
        1 => limit_chain(random),
        2 => (small_diagonal(random).to_vec(), vec![]),
        _ => (large_diagonal(random).to_vec(), vec![]),
    };
    let units = |p: &[i64; 2]| p.map(|c| c.clamp(-FARTHEST, FARTHEST) as i32);
    let both = ring.iter().chain(&chain).map(units).collect();
    let moved = symmetric(random, both);
    let (moved_ring, moved_chain) = moved.split_at(ring.len());
    let mut ring = moved_ring.to_vec();
    if doubled_area(&ring) < 0 {
        ring.reverse();
    }
    let first = random.below(ring.len());
    ring.rotate_left(first);
    Job {
        chain: moved_chain.to_vec(),
        size: size(random),
        ring,
    }
}

/// The corner at the origin turns by the angle of this tangent.
fn limit_corner(random: &mut Random, tangent: f64) -> [[i64; 2]; 4] {
    let [[x, y], second] = limit_steps(random, tangent);
    let top = [
        -FARTHEST + random.between(0, 900),
        FARTHEST - random.between(0, 900),
    ];
    [[-x, -y], [0, 0], second, top]
}

/// A chain whose middle point turns by 25 degrees, along a ring with it or
/// without it.
fn limit_chain(random: &mut Random) -> (Vec<[i64; 2]>, Vec<[i64; 2]>) {
    let corners = limit_corner(random, TANGENT_25);
    let mut ring = corners.to_vec();
    if random.one_in(2) {
        ring.remove(1);
    }
    (ring, corners[..3].to_vec())
}

/// A bad corner at the origin whose diagonal leaves 12 degrees to next.
fn small_diagonal(random: &mut Random) -> [[i64; 2]; 4] {
    let [[x, y], second] = limit_steps(random, TANGENT_12);
    let prev = [-x / 2 - y / 8, -y / 2 + x / 8];
    [[0, 0], [x, y], second, prev]
}

/// A bad corner at the origin whose diagonal leaves 160 degrees to prev.
fn large_diagonal(random: &mut Random) -> [[i64; 2]; 4] {
    let [[x, y], second] = limit_steps(random, TANGENT_20);
    let next = [x / 2 - y / 24, y / 2 + x / 24];
    [[0, 0], next, second, [-x, -y]]
}

/// One of the eight symmetries for ring and chain alike.
fn symmetric(random: &mut Random, points: Ring) -> Ring {
    let (swap, flip) = (random.one_in(2), random.one_in(2));
    let one = |p: [i32; 2]| if swap { [p[1], p[0]] } else { p };
    points
        .into_iter()
        .map(one)
        .map(|[x, y]| [if flip { -x } else { x }, y])
        .collect()
}

/// Rings that tell, a little moved, or whole-number images of small grid
/// rings: what lies exactly on a line stays so, and rounding decides.
pub fn rounding(random: &mut Random, _: usize) -> Job {
    let ring = match random.below(4) {
        0 => nudged(random),
        1 => grazing(random),
        _ => image(random),
    };
    let ring = turned_about(random, ring);
    let chain = if random.one_in(3) {
        drawn::any(random, &ring)
    } else {
        Ring::new()
    };
    Job {
        chain,
        size: size(random),
        ring,
    }
}

fn nudged(random: &mut Random) -> Ring {
    let (ring, _, _) = known::TRIALS[12 + random.below(3)];
    let mut ring = ring.to_vec();
    for c in ring.iter_mut().flatten() {
        if random.one_in(6) {
            *c += random.between(-1, 1) as i32;
        }
    }
    ring
}

fn image(random: &mut Random) -> Ring {
    let width = random.between(2, 6);
    let reach = FARTHEST / (2 * width);
    let reach = random.pick(&[reach, reach, 1_000.min(reach), 20]);
    let mut entry = || random.between(-reach, reach);
    let (a, b, c, d) = (entry(), entry(), entry(), entry());
    let count = 4 + random.below(6);
    let mut grid = || [random.between(0, width), random.between(0, width)];
    let moved = |[x, y]: [i64; 2]| [a * x + b * y, c * x + d * y].map(|v| v as i32);
    (0..count).map(|_| moved(grid())).collect()
}

/// Small whole-number images of rings with a flat cell.
pub fn flat(random: &mut Random, _: usize) -> Job {
    let base = random.pick(&known::FLAT);
    let reach = random.pick(&[1, 3, 20, 300]);
    let mut entry = || random.between(-reach, reach);
    let (a, b, c, d) = (entry(), entry(), entry(), entry());
    let shift = [random.between(-3_000, 3_000), random.between(-3_000, 3_000)];
    let moved = |&[x, y]: &[i64; 2]| [a * x + b * y + shift[0], c * x + d * y + shift[1]];
    let ring = base.iter().map(|p| moved(p).map(|v| v as i32)).collect();
    let ring = turned_about(random, ring);
    Job {
        chain: Ring::new(),
        size: 1,
        ring,
    }
}

/// Two edges that cross so near an end that the parameter is about 1.0e-9.
fn grazing(random: &mut Random) -> Ring {
    let far = FARTHEST as i32;
    let k = 143_138 + random.between(-2_000, 2_000) as i32 / random.pick(&[1, 100, 1_000]);
    vec![[0, -far], [0, far], [far, far], [k, -far], [-far, 1 - far]]
}

/// A rectangle under a bow that is the same on both sides and as high as the
/// share of the chord allows, or a unit more or less.
pub fn snap_at_the_share(random: &mut Random, _: usize) -> Job {
    let k = random.pick(&[2, 10, 100, 1_000, 8_192]) * random.between(5, 8) as i32;
    let beside = random.pick(&[0, 0, 0, 0, 1, -1]);
    // Falling slopes from the chord's end to the top, in tenths of the chord.
    let half = [[0, 0], [4, 10], [11, 22], [20, 31], [30, 37], [40, 40]];
    let rise = |p: &[i32; 2]| [p[0] * k, -p[1] * k - if p[1] == 40 { beside } else { 0 }];
    let left: Ring = half.iter().map(rise).collect();
    let right = left.iter().rev().map(|p| [100 * k - p[0], p[1]]);
    let mut chain: Ring = left
        .iter()
        .copied()
        .chain([[50 * k, -40 * k - beside]])
        .collect();
    chain.extend(right);
    if random.one_in(2) {
        chain.reverse();
    }
    let high = random.pick(&[60, 100]) * k;
    let ring = vec![[0, 0], [100 * k, 0], [100 * k, high], [0, high]];
    Job {
        chain,
        size: 1,
        ring,
    }
}
