//! A divider call: the tests that the scope adds, around the extracted Rust.

use crate::job::{Call, Entry, Given, Job, Marking, Set, POINTS};
use crate::notes;
use crate::stage::{self, Builder, Poly};
use crate::standin;
use crate::traced;

/// Units in a mm, and the largest coordinate in units and in mm.
pub const UNITS: f64 = 8192.0;
pub const FARTHEST: i32 = 8_388_608;
pub const FARTHEST_MM: f64 = 1024.0;
const LARGEST_SHEET: u32 = 2048;
const MOST_PLACES: usize = 1_000_000;
const MOST_CUTS: u32 = 32;
const PRACTICE_POINTS: usize = 24;

pub type NodeNumber = u32;
pub type Cell = [NodeNumber; 4];
/// What a place of a cell list holds that no call has written.
pub const UNTOUCHED: Cell = [NodeNumber::MAX; 4];

/// What a mark holds that no call has written, in a list of our own.
pub const NO_MARK: u8 = 9;

/// A node list: the listed nodes with their pool, its places, the used count
/// that the caller names, and the list of rim marks beside it.
#[derive(Clone, Default)]
pub struct NodeList {
    pub nodes: Builder,
    pub places: usize,
    pub used: usize,
    pub rims: Vec<u8>,
}

/// What is divided, and by which entry: with given marks, in place of the job's
/// chain, where there are some.
#[derive(Clone, Copy)]
pub struct Asked<'a> {
    pub entry: Entry,
    pub job: &'a Job,
    pub marking: Option<&'a Marking>,
}

impl<'a> Asked<'a> {
    /// A job by its chain.
    pub fn of(entry: Entry, job: &'a Job) -> Self {
        let marking = None;
        Asked { entry, job, marking }
    }

    /// A call of a list of calls.
    pub fn by(call: &'a Call) -> Self {
        Asked {
            entry: call.entry,
            job: &call.job,
            marking: call.marking.as_ref(),
        }
    }
}

/// All that a call returns. `n` is zero unless the ring is accepted; `corners`
/// and `k` are zero but for a cell that fails.
#[derive(Clone, Copy, Default, PartialEq, Debug)]
pub struct Answer {
    pub code: u8,
    pub corners: usize,
    pub k: usize,
    pub n: usize,
    pub marked: usize,
    pub cuts: usize,
    pub pieces: usize,
    pub turned: i64,
    pub area: i64,
    pub nodes: usize,
    pub cells: usize,
}

impl NodeList {
    pub fn empty(places: usize) -> Self {
        NodeList::holding(places, 0, &[])
    }

    /// A list that holds these nodes, all inside, with a mark for each place;
    /// of equal keys the first number counts.
    pub fn holding(places: usize, used: usize, nodes: &[[f64; 2]]) -> Self {
        let mut rims = vec![NO_MARK; places];
        rims[..nodes.len()].fill(0);
        let mut list = NodeList {
            places,
            used,
            rims,
            ..NodeList::default()
        };
        for (number, &node) in nodes.iter().enumerate() {
            list.nodes.points.push(node);
            list.nodes.pool.entry(stage::pack(node)).or_insert(number);
        }
        list
    }

    /// A list as it is given, with its marks.
    pub fn given(given: &Given) -> Self {
        let mut rims = vec![NO_MARK; given.rims];
        for (place, mark) in rims.iter_mut().zip(&given.marks) {
            *place = *mark;
        }
        NodeList {
            rims,
            ..NodeList::holding(given.places, given.used, &given.nodes)
        }
    }
}

pub fn in_mm(points: &[[i32; 2]]) -> Vec<[f64; 2]> {
    points
        .iter()
        .map(|p| p.map(|u| f64::from(u) / UNITS))
        .collect()
}

pub fn in_units(p: [f64; 2]) -> [i64; 2] {
    p.map(|mm| (mm * UNITS) as i64)
}

/// A doubled area in units squared, from an area in mm².
pub fn doubled(area: f64) -> i64 {
    (area * 2.0 * UNITS * UNITS) as i64
}

/// Node places and cell places that a ring of `r` points must find free, with
/// so many cuts at most.
pub fn room(r: usize, cuts: u32) -> (usize, usize) {
    let m = (cuts as usize).min(r - 3);
    (3 * r + 2 * m + 1, r + 2 * m)
}

/// One divider call over the lent lists. The pieces are those of an accepted
/// ring, and of one with a cell that fails.
pub fn divide(
    job: &Job,
    list: &mut NodeList,
    cells: &mut [Cell],
    cell_count: usize,
) -> (Answer, Vec<Poly>) {
    divide_with(Asked::of(Entry::Examination, job), list, cells, cell_count)
}

/// The same of any entry.
pub fn divide_with(
    asked: Asked,
    list: &mut NodeList,
    cells: &mut [Cell],
    cell_count: usize,
) -> (Answer, Vec<Poly>) {
    let code = first_tests(asked, list, cells.len(), cell_count);
    if code != 0 {
        notes::take();
        let kept = kept(list, cell_count);
        return (Answer { code, ..kept }, Vec::new());
    }
    tested(asked, list, cells, cell_count)
}

/// The answer of a call that leaves all as found.
fn kept(list: &NodeList, cell_count: usize) -> Answer {
    Answer {
        nodes: list.used,
        cells: cell_count,
        ..Answer::default()
    }
}

/// The same of a call that passed the tests of its entry.
pub fn tested(
    asked: Asked,
    list: &mut NodeList,
    cells: &mut [Cell],
    cell_count: usize,
) -> (Answer, Vec<Poly>) {
    let job = asked.job;
    notes::take();
    let set = asked.entry.set();
    standin::limited(set);
    let kept = kept(list, cell_count);
    let refused = |code| (Answer { code, ..kept }, Vec::new());
    let points = match stage::cleaned(&in_mm(&job.ring), f64::from(job.size)) {
        Ok(points) => points,
        Err(text) if text.contains("collapsed") => return refused(5),
        Err(_) => return refused(6),
    };
    let area = doubled(stage::polygon_area(&points));
    if area <= 0 {
        return refused(7);
    }
    let ring = match asked.marking {
        Some(marking) => traced::marked(&job.ring, job.size, points, marking),
        None => {
            let (simplified, run_mids) = stage::simplify_chain(&in_mm(&job.chain));
            stage::marked(points, &simplified, &run_mids)
        }
    };
    let pieces = stage::split_bad_vertices(&ring).expect("the split never fails");
    let accepted = Answer {
        n: ring.points.len(),
        marked: ring.chain_edge.iter().filter(|&&m| m).count(),
        pieces: pieces.len(),
        area,
        ..kept
    };
    let room = room(job.ring.len(), set.cuts).1;
    (
        write_cells(accepted, &pieces, list, &mut cells[cell_count..], room),
        pieces,
    )
}

/// The cells of the pieces into the free places, or zeros if one fails.
fn write_cells(
    accepted: Answer,
    pieces: &[Poly],
    list: &mut NodeList,
    free: &mut [Cell],
    room: usize,
) -> Answer {
    let mut quads = Vec::new();
    let failed = pieces.iter().find_map(|piece| {
        let failed = list
            .nodes
            .subdivide(piece, &mut quads)
            .err()
            .map(|text| place_of(&text));
        notes::piece_done(failed.map(|(_, k)| k));
        failed
    });
    let before = accepted.cells;
    mark(list);
    if let Some((corners, k)) = failed {
        free[..room].fill([0; 4]);
        return Answer {
            code: 8,
            corners,
            k,
            nodes: list.used,
            cells: before,
            ..Answer::default()
        };
    }
    for (place, quad) in free.iter_mut().zip(&quads) {
        *place = quad.map(|number| number as NodeNumber);
    }
    let notes = notes::look();
    Answer {
        cuts: notes.cuts,
        turned: -doubled(notes.turned_area),
        nodes: list.used,
        cells: before + quads.len(),
        ..accepted
    }
}

/// The new nodes are counted; a mark of theirs is 1 if some attempt asked for
/// its node as a corner or as the middle of a ring edge, else 0. One of a node
/// that was listed becomes 1 then, and never 0.
fn mark(list: &mut NodeList) {
    let new = list.used..list.nodes.points.len();
    list.used = new.end;
    list.rims[new].fill(0);
    for number in list.nodes.asked.drain(..) {
        list.rims[number] = 1;
    }
}

/// Corners of the piece and number of the cell, from the Rust's error text.
fn place_of(text: &str) -> (usize, usize) {
    (number_after(text, "n="), number_after(text, "k="))
}

/// The number that follows `name` in a text.
fn number_after(text: &str, name: &str) -> usize {
    let from = text.find(name).expect("the text names the corner") + name.len();
    let digits = text[from..].chars().take_while(char::is_ascii_digit);
    digits
        .collect::<String>()
        .parse()
        .expect("a number follows")
}

/// 15: a set of limits that is not taken. A NaN is not between.
fn set_out(set: &Set) -> bool {
    let between = |low: f64, high: f64, x: f64| (low..=high).contains(&x);
    set.cuts > MOST_CUTS
        || !between(1.0, 2.0, set.corner)
        || !between(-1.0, 1.0, set.least)
        || !between(-1.0, 1.0, set.greatest)
        || set.least > set.greatest
        || !between(0.0, 1.0, set.share)
}

/// Refusals 1 to 4, for practice also 16 after 1, with given marks 13 and 14
/// after 2, and then 15, or 0.
fn first_tests(asked: Asked, list: &NodeList, cell_places: usize, cell_count: usize) -> u8 {
    let Asked { entry, job, marking } = asked;
    let r = job.ring.len();
    if !(3..=POINTS).contains(&r) || job.chain.len() > POINTS {
        return 1;
    }
    if entry == Entry::Practice && r.max(job.chain.len()) > PRACTICE_POINTS {
        return 16;
    }
    let mut coordinates = job.ring.iter().chain(&job.chain).flatten();
    let within = |c: &i32| (-FARTHEST..=FARTHEST).contains(c);
    if !coordinates.all(within) || !(1..=LARGEST_SHEET).contains(&job.size) {
        return 2;
    }
    let code = marking.map_or(0, |m| traced::refusal(r, m));
    if code != 0 {
        return code;
    }
    let set = entry.set();
    if set_out(&set) {
        return 15;
    }
    if list.used > list.places || cell_count > cell_places || list.places > MOST_PLACES {
        return 3;
    }
    let usable = |c: &f64| c.is_finite() && c.abs() <= FARTHEST_MM;
    if !list.nodes.points.iter().flatten().all(usable) {
        return 3;
    }
    let of_used = list.rims.iter().take(list.used);
    if list.rims.len() < list.places || of_used.copied().any(|m| m > 1) {
        return 3;
    }
    let (nodes, cells) = room(r, set.cuts);
    if list.places - list.used < nodes || cell_places - cell_count < cells {
        return 4;
    }
    0
}
