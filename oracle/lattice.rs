//! Rings of one small lattice, 240 units wide: their corners, middles and centres
//! are often those of other rings there, so that a node that was inside becomes
//! one of the rim, and one of the rim is met by a centre or a cut.

use crate::drawn;
use crate::job::Job;
use crate::place::Ring;
use crate::random::Random;

const WIDE: i64 = 240;

/// A ring with a part that is turned and has an earlier diagonal among its edges,
/// in units.
const TURNED: [[i32; 2]; 8] = [
    [1, 2],
    [1, 1],
    [2, 0],
    [1, 0],
    [1, 1],
    [2, 0],
    [2, 2],
    [1, 1],
];

pub fn job(random: &mut Random) -> Job {
    let ring = match random.below(12) {
        0 => TURNED.map(|p| p.map(|c| 60 * c)).to_vec(),
        1 => square(random),
        _ => star(random),
    };
    let chain = match random.one_in(3) {
        true => drawn::any(random, &ring),
        false => Vec::new(),
    };
    Job {
        ring,
        chain,
        size: 1,
    }
}

fn square(random: &mut Random) -> Ring {
    let side = random.pick(&[30, 60, 120]);
    let last = WIDE / side - 1;
    let [x, y] = [0, 1].map(|_| (random.between(0, last) * side) as i32);
    let far = side as i32;
    vec![[x, y], [x + far, y], [x + far, y + far], [x, y + far]]
}

/// Points of the lattice round their mean, by exact angles.
fn star(random: &mut Random) -> Ring {
    let step = random.pick(&[60, 60, 40, 30]);
    let count = 3 + random.below(6);
    let mut any = || random.between(0, WIDE / step) * step;
    let points: Vec<[i64; 2]> = (0..count).map(|_| [any(), any()]).collect();
    let sum = points
        .iter()
        .fold([0, 0], |s, p| [s[0] + p[0], s[1] + p[1]]);
    let from_mean = |p: &[i64; 2]| [0, 1].map(|k| p[k] * count as i64 - sum[k]);
    let mut around = points.clone();
    around.sort_by(|p, q| {
        let ([a, b], [c, d]) = (from_mean(p), from_mean(q));
        let below = |x: i64, y: i64| y < 0 || y == 0 && x < 0;
        let half = below(a, b).cmp(&below(c, d));
        half.then((c * b).cmp(&(a * d)))
            .then((a * a + b * b).cmp(&(c * c + d * d)))
    });
    around.dedup();
    let ring: Ring = around.iter().map(|p| p.map(|c| c as i32)).collect();
    match ring.len() {
        0..=2 => square(random),
        _ => ring,
    }
}
