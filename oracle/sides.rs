//! The library alone: its detailed form against kept files.

use crate::call::{Answer, NodeList, NodeNumber};
use crate::calls;
use crate::forms::{self, line, Run};
use crate::job::Given;
use crate::least;
use crate::library::{called, Handed, Lists};
use crate::ring_divide::Row;
use crate::supplied::{self, Called, Lent};
use std::path::Path;

/// Does the library give the detailed form that stands beside `input`, a file
/// without rim marks? The lines of pieces are left out: pieces are not returned.
/// A file from before Card 11 is held to the Rust with its test.
pub fn agrees_with_detail(input: &Path) -> bool {
    let bytes = std::fs::read(input).expect("the input can be read");
    let (ours, rust) = match input.extension().is_some_and(|e| e == "calls") {
        true => {
            let text = String::from_utf8(bytes).expect("calls are text");
            (detail_of_calls(&text), forms::called(&text))
        }
        false => (supplied::of_blocks(&bytes, run), forms::detailed(&bytes)),
    };
    let ours: Vec<&str> = ours.lines().filter_map(without_mark).collect();
    let equal = |kept: &str| {
        let other = |l: &&str| !l.starts_with("piece ") && !l.starts_with("rims ");
        let kept = kept.lines().filter(other);
        kept.eq(ours.iter().copied())
    };
    equal(&kept(input)) || equal(&rust)
}

/// The same with rim marks, of the supplied calls and blocks of the cards.
pub fn agrees_with_supplied(input: &Path) -> bool {
    let bytes = std::fs::read(input).expect("the input can be read");
    let ours = match input.extension().is_some_and(|e| e == "calls") {
        true => {
            let text = String::from_utf8(bytes).expect("calls are text");
            supplied::all(&text, run, least::called)
        }
        false => supplied::of_blocks(&bytes, run),
    };
    ours == kept(input)
}

fn kept(input: &Path) -> String {
    std::fs::read_to_string(input.with_extension("detail")).expect("a detailed form")
}

/// A line of the form with marks as the form without has it.
fn without_mark(line: &str) -> Option<&str> {
    match line.split(' ').next() {
        Some("rim") => None,
        Some("node") => line.rsplit_once(' ').map(|(node, _)| node),
        _ => Some(line),
    }
}

/// A call of the library, which leaves its nodes, marks and count in the list.
fn run(lent: &mut Lent, call: &Called) -> Run {
    let mut cells = vec![NodeNumber::MAX; call.cell_numbers];
    let nodes_before = lent.used;
    let handed = Handed {
        entry: call.entry,
        ring: &call.ring,
        chain: &call.chain,
        marking: call.marking.as_ref(),
        size: call.size,
    };
    let lists = Lists {
        nodes: &mut lent.numbers,
        node_count: lent.used,
        rims: &mut lent.rims,
        cells: &mut cells,
        cell_count: call.cell_count,
    };
    let returned = called(&handed, lists);
    lent.used = returned.nodes as usize;
    let cell = |c: &[NodeNumber]| [c[0], c[1], c[2], c[3]];
    Run {
        answer: answer(&returned),
        pieces: Vec::new(),
        cells: cells.chunks_exact(4).map(cell).collect(),
        nodes_before,
        cells_before: call.cell_count,
    }
}

/// The detailed form of calls over prefilled lists, all of whose nodes are inside.
fn detail_of_calls(text: &str) -> String {
    let (mut out, mut number) = (String::new(), 0);
    for given in calls::read(text) {
        out.push_str("list\n");
        let mut lent = lent(&given);
        for c in given.calls {
            let before = lent.rims.clone();
            let call = Called {
                entry: c.entry,
                size: c.job.size,
                ring: c.job.ring.concat(),
                chain: c.job.chain.concat(),
                marking: c.marking,
                cell_numbers: 4 * c.cell_places,
                cell_count: c.cell_count,
                ..Called::default()
            };
            let run = run(&mut lent, &call);
            let name = format!("ring {number}");
            supplied::detail(&mut out, &name, &run, &before, &lent);
            if matches!(run.answer.code, 0 | 8) {
                line(
                    &mut out,
                    format_args!("places {}", forms::places(&run.cells)),
                );
            }
            number += 1;
        }
    }
    out
}

fn lent(given: &Given) -> Lent {
    let list = NodeList::given(given);
    let mut numbers = vec![f64::INFINITY; 2 * given.places];
    let listed = list.nodes.points.as_flattened();
    numbers[..listed.len()].copy_from_slice(listed);
    Lent {
        numbers,
        used: list.used,
        rims: list.rims,
    }
}

/// The answer with its corners where the detailed form has them.
fn answer(a: &Row) -> Answer {
    let fails = a.code == 8;
    Answer {
        code: a.code as u8,
        corners: if fails { a.corners as usize } else { 0 },
        k: a.k as usize,
        n: if fails { 0 } else { a.corners as usize },
        marked: a.marked as usize,
        cuts: a.cuts as usize,
        pieces: a.pieces as usize,
        turned: a.turned as i64,
        area: a.area as i64,
        nodes: a.nodes as usize,
        cells: a.cells as usize,
    }
}
