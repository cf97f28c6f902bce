//! Tiny grids complete: every ring, or every chain, of so many points of a
//! grid. The seed names the set; a set too long for one file has parts.

use crate::job::Job;
use crate::place::Ring;

/// Rings a file can hold.
pub const MOST: usize = 32_768;

struct Set {
    points: u32,
    width: i32,
    height: i32,
    /// Units from a grid point to the next.
    step: i32,
    size: u32,
    /// The points are the chain of a fixed ring, not the ring.
    chain: bool,
    part: usize,
}

const fn rings(points: u32, width: i32, height: i32, step: i32, size: u32, part: usize) -> Set {
    Set {
        points,
        width,
        height,
        step,
        size,
        chain: false,
        part,
    }
}

const fn chains(points: u32, width: i32, height: i32) -> Set {
    Set {
        points,
        width,
        height,
        step: 1,
        size: 1,
        chain: true,
        part: 0,
    }
}

const SETS: [Set; 14] = [
    rings(3, 4, 4, 1, 1, 0),
    rings(4, 3, 3, 1, 1, 0),
    rings(5, 3, 3, 1, 1, 0),
    rings(5, 3, 3, 1, 1, 1),
    rings(5, 3, 2, 8_192, 1, 0),
    rings(6, 2, 2, 1, 1, 0),
    rings(4, 4, 3, 1, 1_500, 0),
    rings(4, 3, 3, 1, 2_048, 0),
    rings(5, 3, 2, 1, 1_727, 0),
    rings(7, 2, 2, 3, 1, 0),
    rings(4, 5, 2, 1, 1_221, 0),
    chains(2, 4, 4),
    chains(3, 3, 3),
    chains(4, 3, 3),
];

/// How many sets there are.
pub const COUNT: usize = SETS.len();

pub fn jobs(seed: usize) -> Vec<Job> {
    let set = &SETS[seed % COUNT];
    let places = (set.width * set.height) as usize;
    let all = places.pow(set.points);
    let from = set.part * MOST;
    (from..all.min(from + MOST))
        .map(|number| job(set, places, number))
        .collect()
}

fn job(set: &Set, places: usize, number: usize) -> Job {
    let mut rest = number;
    let mut points = Ring::new();
    for _ in 0..set.points {
        let place = (rest % places) as i32;
        rest /= places;
        points.push([place % set.width * set.step, place / set.width * set.step]);
    }
    let square = vec![[0, 0], [2, 0], [2, 2], [0, 2]];
    match set.chain {
        true => Job {
            ring: square,
            chain: points,
            size: set.size,
        },
        false => Job {
            ring: points,
            chain: Ring::new(),
            size: set.size,
        },
    }
}
