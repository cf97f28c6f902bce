//! From an outline to whole units: extent, centre, the eight symmetries, the
//! corner it starts with, and now and then the wrong sense.

use crate::random::Random;
use crate::shapes::Outline;

pub type Ring = Vec<[i32; 2]>;
pub const FARTHEST: i64 = 8_388_608;

/// Half the width of a ring, in units: from a few units to the whole sheet.
pub fn extent(random: &mut Random) -> i64 {
    match random.below(8) {
        0 => random.between(3, 12),
        1 => random.between(12, 60),
        2 => random.between(60, 1_000),
        3 => random.pick(&[8, 16, 64, 8_192]),
        4 => random.between(1_000, 100_000),
        5 => 8_192 * random.between(1, 100),
        6 => random.between(100_000, FARTHEST),
        _ => FARTHEST,
    }
}

/// The outline at a random extent and centre.
pub fn place(random: &mut Random, outline: &Outline) -> Ring {
    let extent = extent(random);
    place_at(random, outline, extent)
}

pub fn place_at(random: &mut Random, outline: &Outline, extent: i64) -> Ring {
    let room = FARTHEST - extent;
    let reach = random.pick(&[0, 0, room.min(1_000), room]);
    let centre = [random.between(-reach, reach), random.between(-reach, reach)];
    let unit = |c: f64, k: usize| {
        let value = (c * extent as f64).round() as i64 + centre[k];
        value.clamp(-FARTHEST, FARTHEST) as i32
    };
    let ring: Ring = outline
        .iter()
        .map(|p| [unit(p[0], 0), unit(p[1], 1)])
        .collect();
    turned_about(random, ring)
}

/// One of the eight symmetries, a new first corner, and the right sense except
/// once in sixteen.
pub fn turned_about(random: &mut Random, mut ring: Ring) -> Ring {
    let (swap, flip_x, flip_y) = (random.one_in(2), random.one_in(2), random.one_in(2));
    for p in &mut ring {
        let [x, y] = if swap { [p[1], p[0]] } else { *p };
        *p = [if flip_x { -x } else { x }, if flip_y { -y } else { y }];
    }
    if ring.is_empty() {
        return ring;
    }
    let first = random.below(ring.len());
    ring.rotate_left(first);
    let wrong = random.one_in(16);
    if (doubled_area(&ring) < 0) != wrong {
        ring.reverse();
    }
    ring
}

pub fn doubled_area(ring: &[[i32; 2]]) -> i64 {
    let wide = |p: [i32; 2]| p.map(i64::from);
    let term = |k: usize| {
        let (a, b) = (wide(ring[k]), wide(ring[(k + 1) % ring.len()]));
        a[0] * b[1] - b[0] * a[1]
    };
    (0..ring.len()).map(term).sum()
}

/// The sheet sizes that matter: from 1,221 mm on, points a unit apart merge.
pub fn size(random: &mut Random) -> u32 {
    let usual = [
        1, 1, 1, 1, 2, 10, 100, 625, 1_000, 1_220, 1_221, 1_500, 1_726, 1_727, 2_048,
    ];
    random.pick(&usual)
}
