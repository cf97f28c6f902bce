//! The printed forms: what `divide` prints, and the detailed form of blocks
//! and of calls over prefilled lists.

use crate::blocks::Jobs;
use crate::call::{divide_with, doubled, Answer, Asked, Cell, NodeList, UNTOUCHED};
use crate::job::{Entry, Job};
use crate::paper;
use crate::stage::{polygon_area, Poly};
use crate::standin;
use std::fmt::Write;

/// Places of the program's node list and cell list.
pub const NODE_PLACES: usize = 1_536;
pub const CELL_PLACES: usize = 124;
/// 1 mm² as a doubled area in units squared.
const DOUBLED_MM2: i64 = 2 * 8192 * 8192;

/// A call that was run, with what its lists held before.
pub struct Run {
    pub answer: Answer,
    pub pieces: Vec<Poly>,
    pub cells: Vec<Cell>,
    pub nodes_before: usize,
    pub cells_before: usize,
}

/// Runs a call over the node list and an untouched cell list.
pub fn run(job: &Job, list: &mut NodeList, cell_places: usize, cell_count: usize) -> Run {
    run_with(Asked::of(Entry::Examination, job), list, cell_places, cell_count)
}

/// The same of any entry.
pub fn run_with(asked: Asked, list: &mut NodeList, cell_places: usize, cell_count: usize) -> Run {
    let mut cells = vec![UNTOUCHED; cell_places];
    let nodes_before = list.used;
    let (answer, pieces) = divide_with(asked, list, &mut cells, cell_count);
    Run {
        answer,
        pieces,
        cells,
        nodes_before,
        cells_before: cell_count,
    }
}

/// What the program `divide` prints for these blocks.
pub fn printed(bytes: &[u8]) -> String {
    over_blocks(bytes, |out, number, run, _| print(out, number, run))
}

/// What the program `sheet` prints for these blocks: the listed nodes.
pub fn listed(bytes: &[u8]) -> String {
    let mut list = NodeList::empty(NODE_PLACES);
    for job in Jobs::new(bytes).flatten() {
        run(&job, &mut list, CELL_PLACES, 0);
    }
    let nodes = list.nodes.points.iter().take(list.used);
    nodes
        .enumerate()
        .map(|(number, [x, y])| paper::line(number, *x, *y))
        .collect()
}

/// The detailed form for these blocks.
pub fn detailed(bytes: &[u8]) -> String {
    over_blocks(bytes, detail)
}

/// The detailed form with an empty node list for each ring, and rim marks.
pub fn detailed_each(bytes: &[u8]) -> String {
    let mut out = String::new();
    for (number, job) in Jobs::new(bytes).flatten().enumerate() {
        let mut list = NodeList::empty(NODE_PLACES);
        let run = run(&job, &mut list, CELL_PLACES, 0);
        detail(&mut out, number, &run, &list);
        rims(&mut out, &list);
    }
    out
}

fn over_blocks(bytes: &[u8], show: impl Fn(&mut String, usize, &Run, &NodeList)) -> String {
    let mut out = String::new();
    let mut list = NodeList::empty(NODE_PLACES);
    for (number, job) in Jobs::new(bytes).enumerate() {
        match job {
            Ok(job) => show(
                &mut out,
                number,
                &run(&job, &mut list, CELL_PLACES, 0),
                &list,
            ),
            Err(r) => line(
                &mut out,
                format_args!("block {} refused {}", r.block, r.code),
            ),
        }
    }
    out
}

pub fn line(out: &mut String, text: std::fmt::Arguments) {
    writeln!(out, "{text}").expect("a string takes all text");
}

fn print(out: &mut String, number: usize, run: &Run) {
    let Answer {
        code,
        corners,
        k,
        n,
        cuts,
        turned,
        nodes,
        ..
    } = run.answer;
    if code != 0 {
        line(
            out,
            format_args!("ring {number} refused {code} {corners} {k}"),
        );
        return;
    }
    let area = (run.answer.area * 100 + DOUBLED_MM2 / 2) / DOUBLED_MM2;
    line(
        out,
        format_args!("ring {number} corners {n} cuts {cuts} turned {turned} area {area}"),
    );
    line(
        out,
        format_args!("nodes {nodes} new {}", nodes - run.nodes_before),
    );
    list_cells(out, "quad", run);
}

fn detail(out: &mut String, number: usize, run: &Run, list: &NodeList) {
    answer_line(
        out,
        &format!("ring {number}"),
        &run.answer,
        run.nodes_before,
    );
    if run.answer.code == 0 {
        for piece in &run.pieces {
            let area = doubled(polygon_area(&piece.points));
            line(out, format_args!("piece {} {area}", piece.points.len()));
        }
    }
    for i in run.nodes_before..run.answer.nodes {
        let [x, y] = list.nodes.points[i].map(f64::to_bits);
        line(out, format_args!("node {i} {x:016x} {y:016x}"));
    }
    if run.answer.code == 0 {
        list_cells(out, "cell", run);
    }
}

pub fn answer_line(out: &mut String, name: &str, answer: &Answer, nodes_before: usize) {
    let Answer {
        code,
        corners,
        k,
        n,
        marked,
        cuts,
        pieces,
        turned,
        area,
        nodes,
        cells,
    } = answer;
    let new = nodes - nodes_before;
    line(
        out,
        format_args!(
            "{name} code {code} corners {corners} k {k} n {n} c {marked} s {cuts} \
             pieces {pieces} turned {turned} area {area} nodes {nodes} new {new} cells {cells}"
        ),
    );
}

fn list_cells(out: &mut String, name: &str, run: &Run) {
    for [a, b, c, d] in &run.cells[run.cells_before..run.answer.cells] {
        line(out, format_args!("{name} {a} {b} {c} {d}"));
    }
}

/// The detailed form of calls over prefilled lists. After a call that got as
/// far as its cells, the places of the cell list: `c` cell, `z` zero,
/// `-` untouched; and the rim marks, but in the form from before them.
pub fn called(text: &str) -> String {
    let mut out = String::new();
    let mut number = 0;
    for given in crate::calls::read(text) {
        out.push_str("list\n");
        let mut list = NodeList::given(&given);
        for call in &given.calls {
            let run = run_with(Asked::by(call), &mut list, call.cell_places, call.cell_count);
            detail(&mut out, number, &run, &list);
            if matches!(run.answer.code, 0 | 8) {
                line(&mut out, format_args!("places {}", places(&run.cells)));
            }
            if !standin::is_before() {
                rims(&mut out, &list);
            }
            number += 1;
        }
    }
    out
}

/// The marks of the used nodes.
fn rims(out: &mut String, list: &NodeList) {
    let marks = list.rims.iter().take(list.used).map(u8::to_string);
    line(out, format_args!("rims {}", marks.collect::<String>()));
}

pub fn places(cells: &[Cell]) -> String {
    let sign = |cell: &Cell| match *cell {
        UNTOUCHED => '-',
        [0, 0, 0, 0] => 'z',
        _ => 'c',
    };
    cells.iter().map(sign).collect()
}
