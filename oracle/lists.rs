//! Calls over prefilled lists: nodes that the rings will meet again with other
//! bits, lists with too little room, nodes that cannot be used.

use crate::job::{Call, Entry, Given, Job};
use crate::kinds;
use crate::lattice;
use crate::leads;
use crate::place::Ring;
use crate::random::Random;
use crate::sets;

/// A list of one to four calls, the first ring called again at the end.
pub fn given(random: &mut Random, job: impl Fn(&mut Random, usize) -> Job) -> Given {
    given_by(random, 3, job, |_| Entry::Examination)
}

/// The same, each call of some entry, and so many calls at most but for the last.
fn given_by(
    random: &mut Random,
    most: usize,
    job: impl Fn(&mut Random, usize) -> Job,
    entry: impl Fn(&mut Random) -> Entry,
) -> Given {
    let count = 1 + random.below(most);
    let mut jobs: Vec<Job> = (0..count).map(|k| job(random, k)).collect();
    if random.one_in(2) {
        jobs.push(jobs[0].clone());
    }
    let mut nodes: Vec<[f64; 2]> = Vec::new();
    for job in &jobs {
        for node in expected(&job.ring) {
            if random.one_in(3) {
                nodes.push(node.map(|c| beside(random, c)));
            }
        }
    }
    nodes.truncate(random.pick(&[0, 5, 20, 40, 80]));
    spoil(random, &mut nodes);
    let entries: Vec<Entry> = jobs.iter().map(|_| entry(random)).collect();
    let first = room(jobs[0].ring.len(), &entries[0]).0;
    let (places, used) = places(random, nodes.len(), first);
    nodes.truncate(places);
    let calls = jobs.into_iter().zip(entries);
    let calls = calls.map(|(job, entry)| call(random, entry, job)).collect();
    Given {
        places,
        used,
        rims: places,
        marks: vec![0; nodes.len()],
        nodes,
        calls,
    }
}

/// The same, two calls of three with given marks.
pub fn with_marks(random: &mut Random, job: impl Fn(&mut Random, usize) -> Job) -> Given {
    let given = given(random, job);
    marked(random, given)
}

/// The same, each call with a set of limits and two of three with given marks.
pub fn with_sets(random: &mut Random, job: impl Fn(&mut Random, usize) -> Job) -> Given {
    let given = given_by(random, 3, job, sets::any);
    marked(random, given)
}

/// The same, each call of the practice entry; half of the rings are its own.
pub fn for_practice(random: &mut Random, job: impl Fn(&mut Random, usize) -> Job) -> Given {
    let either = |random: &mut Random, place| match random.one_in(2) {
        true => job(random, place),
        false => kinds::paper(random),
    };
    given_by(random, 3, either, |_| Entry::Practice)
}

/// Calls of every entry in turn on a list with marks; two rings of three are of
/// one small lattice, where corners, middles and centres meet.
pub fn with_rims(random: &mut Random, job: impl Fn(&mut Random, usize) -> Job) -> Given {
    let either = |random: &mut Random, place| match random.one_in(3) {
        true => job(random, place),
        false => lattice::job(random),
    };
    let entry = |random: &mut Random| match random.below(4) {
        0 => Entry::Examination,
        1 => Entry::Practice,
        _ => sets::any(random),
    };
    let given = given_by(random, 6, either, entry);
    let mut given = marked(random, given);
    for mark in &mut given.marks {
        *mark = random.below(2) as u8;
    }
    let places = given.places;
    given.rims = match random.below(20) {
        0 => places.saturating_sub(1),
        1 => random.pick(&[0, given.used, places / 2]).min(places),
        2..=4 => places + 1 + random.below(40),
        _ => places,
    };
    if random.one_in(16) && !given.marks.is_empty() {
        let at = random.below(given.marks.len());
        given.marks[at] = random.pick(&[2, 3, 7, 128, 254, 255]);
    }
    given
}

fn marked(random: &mut Random, mut given: Given) -> Given {
    let chained = |call: &Call| call.entry == Entry::Practice || call.job.ring.is_empty();
    for call in &mut given.calls {
        if !chained(call) && !random.one_in(3) {
            call.marking = Some(leads::marking(random, &call.job));
        }
    }
    given
}

/// One call on an empty list that has the room of the program's.
pub fn alone(entry: Entry, job: &Job) -> Given {
    let call = Call {
        entry,
        job: job.clone(),
        marking: None,
        cell_places: 124,
        cell_count: 0,
    };
    Given {
        places: 1_536,
        rims: 1_536,
        calls: vec![call],
        ..Given::default()
    }
}

/// Corners, straight middles and mean of a ring, in mm.
fn expected(ring: &Ring) -> Vec<[f64; 2]> {
    let corners: Vec<[f64; 2]> = ring
        .iter()
        .map(|p| p.map(|u| f64::from(u) / 8192.0))
        .collect();
    let next = corners.iter().cycle().skip(1);
    let middles = corners.iter().zip(next).map(|(a, b)| half(*a, *b));
    let mut sum = [0.0, 0.0];
    for p in &corners {
        sum = [sum[0] + p[0], sum[1] + p[1]];
    }
    let mean = sum.map(|s: f64| s / corners.len().max(1) as f64);
    let middles: Vec<[f64; 2]> = middles.collect();
    corners
        .iter()
        .copied()
        .chain(middles)
        .chain([mean])
        .collect()
}

fn half(a: [f64; 2], b: [f64; 2]) -> [f64; 2] {
    [0.5 * (a[0] + b[0]), 0.5 * (a[1] + b[1])]
}

/// A double at or beside `c`: the same key or, now and then, the next one.
fn beside(random: &mut Random, c: f64) -> f64 {
    let moved = match random.below(8) {
        0..=2 => c,
        3 => f64::from_bits(c.to_bits() + 1),
        4 if c != 0.0 => f64::from_bits(c.to_bits() - 1),
        4 => -0.0,
        5 => c + random.within(-4.9e-9, 4.9e-9),
        6 => c + random.pick(&[5.0e-9, -5.0e-9, 4.999999e-9]),
        _ => c + random.within(-1.5e-8, 1.5e-8),
    };
    moved.clamp(-1024.0, 1024.0)
}

/// One list in twenty has a node that cannot be used, four a node at a limit
/// that can.
fn spoil(random: &mut Random, nodes: &mut [[f64; 2]]) {
    if nodes.is_empty() {
        return;
    }
    let at = random.below(nodes.len());
    let beyond = f64::from_bits(1024.0f64.to_bits() + 1);
    let value = match random.below(20) {
        0 => random.pick(&[
            f64::NAN,
            f64::INFINITY,
            f64::NEG_INFINITY,
            beyond,
            -beyond,
            1.0e300,
        ]),
        1..=4 => random.pick(&[1024.0, -1024.0, -0.0, 5.0e-324, -5.0e-324]),
        _ => return,
    };
    nodes[at][random.below(2)] = value;
}

/// Places and used count: most lists are long, some have just the room or one
/// place less, some name a count above their places.
fn places(random: &mut Random, used: usize, room: usize) -> (usize, usize) {
    match random.below(40) {
        0..=3 => (used + room, used),
        4 => ((used + room).saturating_sub(1), used),
        5..=8 => (used + room + random.below(40), used),
        9 => (used, used),
        10 => (used, used + 1 + random.below(3)),
        11 if used % 2 == 0 => (1_000_001, used),
        11 => (65_536, used),
        12..=15 => (1_536, used),
        _ => (65_535, used),
    }
}

/// Free node places and free cell places that a ring of `r` points needs.
fn room(r: usize, entry: &Entry) -> (usize, usize) {
    let m = r.saturating_sub(3).min(entry.set().cuts as usize);
    (3 * r + 2 * m + 1, r + 2 * m)
}

fn call(random: &mut Random, entry: Entry, job: Job) -> Call {
    let (_, room) = room(job.ring.len(), &entry);
    let cell_count = random.pick(&[0, 0, 1, 4]);
    let cell_places = match random.below(20) {
        0..=3 => cell_count + room,
        4 => (cell_count + room).saturating_sub(1),
        5 => cell_count,
        _ => random.pick(&[124, 130, 200]),
    };
    let cell_count = if random.one_in(40) {
        cell_places + 1
    } else {
        cell_count
    };
    Call {
        entry,
        job,
        marking: None,
        cell_places,
        cell_count,
    }
}
