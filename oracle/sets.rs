//! Sets of limits at random: at the ends of what is taken, just beyond them,
//! and between.

use crate::job::{Entry, Set};
use crate::random::Random;

/// What each value of a set is changed to, one at a time: both ends of what is
/// taken, the next double beyond each, no number, and the infinities.
pub fn ends() -> Vec<Set> {
    let beyond = |x: f64| f64::from_bits(x.to_bits() + 1);
    let below = |x: f64| f64::from_bits(x.to_bits() - 1);
    let never = [f64::NAN, f64::INFINITY, f64::NEG_INFINITY];
    let set = Set::DELIVERED;
    let mut sets = Vec::new();
    for cuts in [0, 1, 31, 32, 33, u32::MAX] {
        sets.push(Set { cuts, ..set });
    }
    for corner in [1.0, 2.0, below(1.0), beyond(2.0)].into_iter().chain(never) {
        sets.push(Set { corner, ..set });
    }
    for share in [0.0, -0.0, 1.0, -5.0e-324, beyond(1.0)]
        .into_iter()
        .chain(never)
    {
        sets.push(Set { share, ..set });
    }
    let (least, greatest) = (set.least, set.greatest);
    let pairs = [
        (-1.0, 1.0),
        (1.0, 1.0),
        (-1.0, -1.0),
        (0.0, -0.0),
        (0.5, 0.5),
        (greatest, least),
        (beyond(0.5), 0.5),
        (beyond(-1.0), 1.0),
        (-1.0, beyond(1.0)),
    ];
    let of_never = never.into_iter().flat_map(|x| [(x, greatest), (least, x)]);
    for (least, greatest) in pairs.into_iter().chain(of_never) {
        sets.push(Set {
            least,
            greatest,
            ..set
        });
    }
    sets
}

/// A call with a set; one in six has the set on delivery.
pub fn any(random: &mut Random) -> Entry {
    if random.one_in(6) {
        return Entry::Limited(Set::DELIVERED);
    }
    let mut set = Set {
        corner: corner(random),
        share: share(random),
        cuts: cuts(random),
        ..Set::DELIVERED
    };
    (set.least, set.greatest) = cosines(random);
    if random.one_in(10) {
        spoil(random, &mut set);
    }
    Entry::Limited(set)
}

fn corner(random: &mut Random) -> f64 {
    let delivered = Set::DELIVERED.corner;
    match random.below(8) {
        0..=3 => random.pick(&[1.0, 2.0, delivered, 1.5]),
        4 => f64::from_bits(delivered.to_bits() + 1),
        _ => random.within(1.0, 2.0),
    }
}

fn share(random: &mut Random) -> f64 {
    match random.below(8) {
        0..=4 => random.pick(&[0.0, -0.0, 1.0, 0.4, 0.5, 5.0e-324]),
        _ => random.share(),
    }
}

fn cuts(random: &mut Random) -> u32 {
    match random.below(8) {
        0..=2 => random.pick(&[0, 1, 2, 31, 32]),
        _ => random.below(33) as u32,
    }
}

/// The least and the greatest cosine: those on delivery, all, one alone, or any.
fn cosines(random: &mut Random) -> (f64, f64) {
    let (a, b) = (random.within(-1.0, 1.0), random.within(-1.0, 1.0));
    match random.below(8) {
        0..=2 => (Set::DELIVERED.least, Set::DELIVERED.greatest),
        3 | 4 => (-1.0, 1.0),
        5 => random.pick(&[(0.0, 0.0), (-0.0, 0.0), (1.0, 1.0), (-1.0, -1.0), (a, a)]),
        _ => (a.min(b), a.max(b)),
    }
}

/// One value that is not taken, or the two cosines exchanged.
fn spoil(random: &mut Random, set: &mut Set) {
    let beyond = |x: f64| f64::from_bits(x.to_bits() + 1);
    let below = |x: f64| f64::from_bits(x.to_bits() - 1);
    let never = random.pick(&[f64::NAN, f64::INFINITY, f64::NEG_INFINITY]);
    match random.below(6) {
        0 => set.cuts = random.pick(&[33, 60, 1 << 31, u32::MAX]),
        1 => set.corner = random.pick(&[below(1.0), beyond(2.0), 0.0, never]),
        2 => set.least = random.pick(&[beyond(-1.0), beyond(1.0), never]),
        3 => set.greatest = random.pick(&[beyond(-1.0), beyond(1.0), never]),
        4 => (set.least, set.greatest) = (beyond(0.5), 0.5),
        _ => set.share = random.pick(&[-5.0e-324, beyond(1.0), never]),
    }
}
