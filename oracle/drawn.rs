//! Chains: the drawn run along some of a ring's edges, in either sense, as
//! bows that rise from an edge, with points that stand still.

use crate::job::POINTS;
use crate::place::{Ring, FARTHEST};
use crate::random::Random;

/// How high the bows rise, as a share of their chord, and their samples.
#[derive(Clone, Copy)]
pub struct Bow {
    pub low: f64,
    pub high: f64,
    pub samples: usize,
}

pub const GENTLE: Bow = Bow {
    low: -0.12,
    high: 0.12,
    samples: 5,
};
pub const STRAIGHT: Bow = Bow {
    low: 0.0,
    high: 0.0,
    samples: 6,
};
pub const HIGH: Bow = Bow {
    low: 0.25,
    high: 0.4,
    samples: 11,
};
pub const FAR: Bow = Bow {
    low: 0.38,
    high: 0.9,
    samples: 19,
};

/// A chain along `edges` edges of the ring from a random corner.
pub fn along(random: &mut Random, ring: &Ring, edges: usize, bow: Bow) -> Ring {
    let mut chain = Ring::new();
    if ring.is_empty() {
        return chain;
    }
    let first = random.below(ring.len());
    let step = if random.one_in(2) { 1 } else { ring.len() - 1 };
    let corner = |k: usize| ring[(first + k * step) % ring.len()];
    for k in 0..edges {
        chain.push(corner(k));
        if !random.one_in(5) {
            chain.extend(bowed(random, corner(k), corner(k + 1), bow));
        }
        if random.one_in(8) {
            let still = chain[chain.len() - 1];
            chain.push(still);
        }
    }
    chain.push(corner(edges));
    chain.truncate(POINTS);
    chain
}

/// Samples of a parabola over the edge, with its top at the middle.
fn bowed(random: &mut Random, a: [i32; 2], b: [i32; 2], bow: Bow) -> Ring {
    let sign = if bow.low > 0.0 && random.one_in(2) {
        -1.0
    } else {
        1.0
    };
    let height = sign * random.within(bow.low, bow.high);
    let at_limit = bow.high >= 0.4 && random.one_in(4);
    let height = if at_limit { 0.4 * sign } else { height };
    let samples = 1 + random.below(bow.samples);
    let chord = [
        f64::from(b[0]) - f64::from(a[0]),
        f64::from(b[1]) - f64::from(a[1]),
    ];
    let sample = |k: usize| {
        let t = k as f64 / (samples + 1) as f64;
        let rise = 4.0 * t * (1.0 - t) * height;
        let x = f64::from(a[0]) + t * chord[0] + rise * chord[1];
        let y = f64::from(a[1]) + t * chord[1] - rise * chord[0];
        [unit(x), unit(y)]
    };
    (1..=samples).map(sample).collect()
}

fn unit(value: f64) -> i32 {
    value.round().clamp(-FARTHEST as f64, FARTHEST as f64) as i32
}

/// The chain that a ring of any kind gets: none, one point, two, a run of
/// edges, the whole ring, or points anywhere.
pub fn any(random: &mut Random, ring: &Ring) -> Ring {
    if ring.is_empty() {
        return Ring::new();
    }
    let bow = random.pick(&[GENTLE, GENTLE, HIGH, FAR]);
    match random.below(8) {
        0..=2 => Ring::new(),
        3 => vec![random.pick(ring)],
        4 => (0..2 + random.below(6))
            .map(|_| random.pick(ring))
            .collect(),
        5 => along(random, ring, ring.len(), bow),
        _ => {
            let edges = 1 + random.below(ring.len().min(6));
            along(random, ring, edges, bow)
        }
    }
}
