//! Kinds of rings for their marks: chains, far snaps, retries, turned parts.

use crate::drawn::{self, along};
use crate::exact;
use crate::job::Job;
use crate::known;
use crate::place::{doubled_area, place, size, turned_about, Ring};
use crate::random::Random;
use crate::shapes;

/// A ring that is mostly convex, for marks that live to the cells.
fn plain(random: &mut Random) -> Ring {
    let count = 3 + random.below(9);
    let inner = random.pick(&[0.7, 0.95]);
    let outline = shapes::star(random, count, inner);
    place(random, &outline)
}

pub fn chains(random: &mut Random, _: usize) -> Job {
    let ring = plain(random);
    let edges = 1 + random.below(ring.len());
    let chain = along(random, &ring, edges, drawn::GENTLE);
    Job {
        chain,
        size: size(random),
        ring,
    }
}

pub fn far(random: &mut Random, place: usize) -> Job {
    if random.one_in(4) {
        return exact::snap_at_the_share(random, place);
    }
    let ring = plain(random);
    let edges = 1 + random.below(ring.len().min(4));
    let bow = random.pick(&[drawn::FAR, drawn::HIGH]);
    let chain = along(random, &ring, edges, bow);
    Job {
        chain,
        size: size(random),
        ring,
    }
}

/// Flat or dented rings: a bow inwards folds the snapped cells, and straight
/// middles may or may not save the piece.
pub fn retries(random: &mut Random, _: usize) -> Job {
    let height = random.pick(&[0.02, 0.1, 0.2, 0.3]);
    let mut outline = match random.below(3) {
        0 => vec![
            [-1.0, -height],
            [1.0, -height],
            [1.0, height],
            [-1.0, height],
        ],
        1 => vec![[-1.0, 0.0], [0.0, 1.0 - height], [1.0, 0.0], [0.0, 1.0]],
        _ => {
            let count = 4 + random.below(5);
            shapes::star(random, count, 0.4)
        }
    };
    for c in outline.iter_mut().flatten() {
        *c = (*c + random.within(-0.04, 0.04)).clamp(-1.0, 1.0);
    }
    let ring = place(random, &outline);
    let edges = 1 + random.below(3);
    let bow = random.pick(&[drawn::HIGH, drawn::HIGH, drawn::FAR, drawn::GENTLE]);
    let chain = along(random, &ring, edges, bow);
    Job {
        chain,
        size: size(random),
        ring,
    }
}

/// Images of small rings that touch themselves so that a cut leaves a part of
/// the wrong sense; half of them with a chain along some of their edges.
pub fn turned(random: &mut Random, _: usize) -> Job {
    let base = random.pick(&known::TURNED);
    let (scale, shear) = (
        random.pick(&[1, 1, 2, 3, 1_000, 500_000]),
        random.between(-1, 1),
    );
    let mut image: Ring = base
        .iter()
        .map(|&[x, y]| [(x + shear * y) * scale, y * scale].map(|c| c as i32))
        .collect();
    if random.one_in(3) {
        let (at, from) = (random.below(image.len()), random.below(image.len()));
        let [x, y] = image[from];
        image.insert(
            at,
            [
                x + random.between(-2, 2) as i32,
                y + random.between(-2, 2) as i32,
            ],
        );
    }
    if doubled_area(&image) < 0 {
        image.reverse();
    }
    let edges = 1 + random.below(image.len());
    let chain = match random.below(2) {
        0 => Ring::new(),
        _ => along(random, &image, edges, drawn::GENTLE),
    };
    Job {
        chain,
        size: 1,
        ring: image,
    }
}

/// Rings of a small sheet, so that corners and middles are met again; chains
/// run straight along edges, so that a snap point has its middle's key and
/// other bits.
pub fn shared(random: &mut Random, _: usize) -> Job {
    let count = 3 + random.below(4);
    let mut at = || 840 * random.pick(&[0, 1, 2, 5, 7]);
    let ring: Ring = (0..count).map(|_| [at(), at()]).collect();
    let ring = turned_about(random, ring);
    let edges = random.below(ring.len());
    let chain = along(random, &ring, edges, drawn::STRAIGHT);
    Job {
        chain,
        size: 1,
        ring,
    }
}
