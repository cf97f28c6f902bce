//! A call of the exported divider over guarded lists, compared with the Rust;
//! a call of the exported writer, compared with our own writing of blocks; and
//! one of the exported sheet, compared with an exact decimal printer.

use crate::call::{Answer, Asked, Cell, NodeList, NodeNumber, UNTOUCHED};
use crate::desk::answer;
use crate::forms::run_with;
use crate::job::{Entry, Job, Marking};
use crate::paper;
use crate::ring_divide::{self as exported, Row};

impl From<&Answer> for Row {
    fn from(a: &Answer) -> Self {
        Row {
            code: u64::from(a.code),
            corners: a.n.max(a.corners) as u64,
            k: a.k as u64,
            marked: a.marked as u64,
            cuts: a.cuts as u64,
            pieces: a.pieces as u64,
            turned: a.turned as u64,
            area: a.area as u64,
            nodes: a.nodes as u64,
            cells: a.cells as u64,
        }
    }
}

/// Numbers before and after a list that no call may change.
const GUARD: usize = 16;

/// A list between guards, every number of which is known.
#[derive(Clone, PartialEq)]
pub struct Guarded<T> {
    numbers: Vec<T>,
    len: usize,
}

impl<T: Copy> Guarded<T> {
    /// A list of `len` numbers; guards and places hold `filler` of their place.
    pub fn new(len: usize, filler: impl Fn(usize) -> T) -> Self {
        Guarded {
            numbers: (0..len + 2 * GUARD).map(filler).collect(),
            len,
        }
    }

    pub fn list(&mut self) -> &mut [T] {
        &mut self.numbers[GUARD..GUARD + self.len]
    }
}

/// A node list with its marks, each between guards.
#[derive(Clone)]
pub struct Image {
    pub nodes: Guarded<f64>,
    pub rims: Guarded<u8>,
}

/// A node list of `places` with the listed nodes, one more number if `odd`, and
/// its marks.
pub fn node_image(list: &NodeList, odd: usize) -> Image {
    let filler = |place: usize| f64::from_bits(0x4012_3456_0000_0000 | place as u64);
    let mark = |place: usize| 0x60 | place as u8 & 0x0f;
    let mut image = Image {
        nodes: Guarded::new(2 * list.places + odd, filler),
        rims: Guarded::new(list.rims.len(), mark),
    };
    image.holds(list);
    image
}

impl Image {
    /// What the Rust has listed stands in it from here on.
    fn holds(&mut self, list: &NodeList) {
        let numbers = list.nodes.points.as_flattened();
        self.nodes.list()[..numbers.len()].copy_from_slice(numbers);
        self.rims.list().copy_from_slice(&list.rims);
    }

    /// The lists as a call is lent them.
    pub fn lent<'a>(
        &'a mut self,
        node_count: usize,
        cells: &'a mut Guarded<NodeNumber>,
        cell_count: usize,
    ) -> Lists<'a> {
        Lists {
            nodes: self.nodes.list(),
            node_count,
            rims: self.rims.list(),
            cells: cells.list(),
            cell_count,
        }
    }
}

/// A cell list of `places`, with `odd` more numbers.
pub fn cell_image(places: usize, odd: usize) -> Guarded<NodeNumber> {
    Guarded::new(4 * places + odd, |place| 0x9000_0000 ^ place as NodeNumber)
}

/// What a call is handed, flat as it is lent: given marks stand in place of the
/// chain where there are some.
pub struct Handed<'a> {
    pub entry: Entry,
    pub ring: &'a [i32],
    pub chain: &'a [i32],
    pub marking: Option<&'a Marking>,
    pub size: u32,
}

/// The lists that a call is lent.
pub struct Lists<'a> {
    pub nodes: &'a mut [f64],
    pub node_count: usize,
    pub rims: &'a mut [u8],
    pub cells: &'a mut [NodeNumber],
    pub cell_count: usize,
}

impl<'a> Handed<'a> {
    pub fn new(asked: Asked<'a>) -> Self {
        let job = asked.job;
        Handed {
            entry: asked.entry,
            ring: job.ring.as_flattened(),
            chain: job.chain.as_flattened(),
            marking: asked.marking,
            size: job.size,
        }
    }
}

/// Calls the library's examination entry.
pub fn call(job: &Job, lists: Lists) -> Row {
    called(&Handed::new(Asked::of(Entry::Examination, job)), lists)
}

/// Calls the library's entry.
pub fn called(handed: &Handed, lists: Lists) -> Row {
    let (ring, chain, size) = (handed.ring, handed.chain, handed.size);
    let Lists {
        nodes,
        node_count,
        rims,
        cells,
        cell_count,
    } = lists;
    match (handed.entry, handed.marking) {
        (Entry::Practice, Some(_)) => unreachable!("the practice paper has a chain"),
        (Entry::Practice, None) => exported::ring_divide_practice(
            ring, chain, size, nodes, node_count, rims, cells, cell_count,
        ),
        (Entry::Examination, None) => {
            exported::ring_divide(ring, chain, size, nodes, node_count, rims, cells, cell_count)
        }
        (Entry::Examination, Some(m)) => exported::ring_divide_marked(
            ring, &m.kinds, &m.snaps, &m.outline, &m.loops, size, nodes, node_count, rims, cells,
            cell_count,
        ),
        (Entry::Limited(s), None) => exported::ring_divide_set(
            s.corner, s.least, s.greatest, s.cuts, s.share, ring, chain, size, nodes, node_count,
            rims, cells, cell_count,
        ),
        (Entry::Limited(s), Some(m)) => exported::ring_divide_marked_set(
            s.corner, s.least, s.greatest, s.cuts, s.share, ring, &m.kinds, &m.snaps, &m.outline,
            &m.loops, size, nodes, node_count, rims, cells, cell_count,
        ),
    }
}

/// Runs a call on both sides and compares every value, node bit, mark, cell
/// place and guard. `odd` numbers more than its places stand at the end of the
/// cell list.
pub fn compared(
    asked: Asked,
    list: &mut NodeList,
    image: &mut Image,
    cell_places: usize,
    cell_count: usize,
    odd: usize,
) -> Result<Row, String> {
    let mut cells = cell_image(cell_places, odd);
    let mut expected_cells = cells.clone();
    let mut expected = image.clone();
    let handed = Handed::new(asked);
    let returned = called(&handed, image.lent(list.used, &mut cells, cell_count));

    let run = run_with(asked, list, cell_places, cell_count);
    expected.holds(list);
    overlay(expected_cells.list(), &run.cells);
    let answer = Row::from(&run.answer);
    if returned != answer {
        return Err(format!("returned\n  {returned:?}, the Rust\n  {answer:?}"));
    }
    same_lists((image, &cells), (&expected, &expected_cells))?;
    Ok(returned)
}

type Both<'a> = (&'a Image, &'a Guarded<NodeNumber>);

fn same_lists((ours, cells): Both, (rust, rust_cells): Both) -> Result<(), String> {
    same(
        "node number",
        &ours.nodes.numbers,
        &rust.nodes.numbers,
        f64::to_bits,
    )?;
    same("mark", &ours.rims.numbers, &rust.rims.numbers, u64::from)?;
    same(
        "cell number",
        &cells.numbers,
        &rust_cells.numbers,
        u64::from,
    )
}

/// The cells that the Rust wrote, over what was there.
fn overlay(numbers: &mut [NodeNumber], cells: &[Cell]) {
    for (place, cell) in numbers.chunks_exact_mut(4).zip(cells) {
        if *cell != UNTOUCHED {
            place.copy_from_slice(cell);
        }
    }
}

fn same<T: Copy>(name: &str, ours: &[T], rust: &[T], bits: fn(T) -> u64) -> Result<(), String> {
    let differs = |k: &usize| bits(ours[*k]) != bits(rust[*k]);
    match (0..ours.len()).find(differs) {
        None => Ok(()),
        Some(k) => {
            let (a, b) = (bits(ours[k]), bits(rust[k]));
            let place = k as i64 - GUARD as i64;
            Err(format!(
                "{name} {place} is {a:016x}, with the Rust {b:016x}"
            ))
        }
    }
}

/// A call of the examination entry that must leave all as found: nothing may
/// change but the answer. Of the ring and the chain so many numbers are lent, and
/// of the marks of 300 places so many.
pub fn refused(
    lengths: (usize, usize),
    job: &Job,
    counts: (usize, usize),
    marks: usize,
    code: u64,
) -> Result<(), String> {
    let mut list = NodeList::empty(300);
    list.rims.truncate(marks);
    let (mut image, mut cells) = (node_image(&list, 1), cell_image(124, 3));
    let before = (image.clone(), cells.clone());
    let whole = Handed::new(Asked::of(Entry::Examination, job));
    let handed = Handed {
        ring: &whole.ring[..lengths.0],
        chain: &whole.chain[..lengths.1],
        ..whole
    };
    let returned = called(&handed, image.lent(counts.0, &mut cells, counts.1));
    let kept = Answer {
        nodes: counts.0,
        cells: counts.1,
        ..Answer::default()
    };
    let answer = Row {
        code,
        ..Row::from(&kept)
    };
    if returned != answer {
        return Err(format!("returned\n  {returned:?}, wanted\n  {answer:?}"));
    }
    same_lists((&image, &cells), (&before.0, &before.1))
}

/// A call of the writer: its answer, each byte, and the guards. Answers the pair, or nothing where it is refused.
pub fn written(
    ring: &[i32],
    chain: &[i32],
    size: u32,
    number: u32,
    room: usize,
) -> Result<Vec<u8>, String> {
    let (code, pair) = answer(ring, chain, size, number, room);
    filled(code, &pair, room, |out| exported::blocks_write(ring, chain, size, number, out))?;
    Ok(pair)
}

/// A call of the sheet: its answer, each byte, and the guards.
pub fn listed(nodes: &[f64], used: u64, room: usize) -> Result<(), String> {
    let (code, sheet) = paper::answer(nodes, used, room);
    filled(code, &sheet, room, |out| exported::node_sheet(nodes, used as usize, out))
}

/// A call that fills a destination of `room` bytes, twice, the second time over one with every bit turned.
fn filled(code: u32, bytes: &[u8], room: usize, call: impl Fn(&mut [u8]) -> u64) -> Result<(), String> {
    for turned in [0, 255] {
        let filler = |place: usize| (place as u8).wrapping_mul(37).wrapping_add(91) ^ turned;
        let mut out = Guarded::new(room, filler);
        let mut expected = out.clone();
        expected.list()[..bytes.len()].copy_from_slice(bytes);
        let returned = call(out.list());
        if returned != u64::from(code) {
            return Err(format!("answered {returned}, wanted {code}"));
        }
        same("byte", &out.numbers, &expected.numbers, u64::from)?;
    }
    Ok(())
}
