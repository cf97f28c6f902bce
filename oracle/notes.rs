//! What the extracted Rust notes on its way: cuts and turned area, which the
//! caller is told, and what the census counts. It decides nothing.

use std::cell::Cell;

/// Notes of one call.
#[derive(Clone, Copy, Default)]
pub struct Notes {
    /// Cuts made.
    pub cuts: usize,
    /// Sum of the signed areas of the parts that were turned, in mm².
    pub turned_area: f64,
    /// Parts turned, and those of them that carry a mark.
    pub turned: usize,
    pub turned_marked: usize,
    /// Parts whose worst corner, bad, is equalled by an earlier one.
    pub ties: usize,
    /// Parts with a bad corner that go out because all cuts are spent.
    pub spent: usize,
    /// Snap points judged too far, and snap points taken that are no middle.
    pub far: usize,
    pub near: usize,
    /// Pieces with a snap point of both sorts.
    pub far_and_near: usize,
    /// Pieces saved by straight middles, pieces failing again, pieces failing
    /// again at another cell, pieces whose cells were taken back, and pieces
    /// failing without another attempt.
    pub saved: usize,
    pub failed_again: usize,
    pub failed_elsewhere: usize,
    pub taken_back: usize,
    pub not_retried: usize,
    /// Nodes that were listed with the same key and other bits.
    pub other_bits: usize,
    /// Of the piece under way: snap points so far, cell of the first failure.
    piece: (usize, usize),
    retried_at: Option<usize>,
}

thread_local! {
    static NOTES: Cell<Notes> = Cell::new(Notes::default());
}

/// The notes so far, which start anew.
pub fn take() -> Notes {
    NOTES.replace(Notes::default())
}

/// The notes so far.
pub fn look() -> Notes {
    NOTES.get()
}

fn note(change: impl FnOnce(&mut Notes)) {
    let mut notes = NOTES.get();
    change(&mut notes);
    NOTES.set(notes);
}

pub fn cut() {
    note(|n| n.cuts += 1);
}

pub fn spent() {
    note(|n| n.spent += 1);
}

pub fn far() {
    note(|n| n.far += 1);
}

pub fn near(snap: [f64; 2], middle: [f64; 2]) {
    if snap != middle {
        note(|n| n.near += 1);
    }
}

pub fn retried(cell: usize) {
    note(|n| n.retried_at = Some(cell));
}

/// A piece is done; `failed_at` is the cell that failed, if one did.
pub fn piece_done(failed_at: Option<usize>) {
    note(|n| {
        let (far, near) = n.piece;
        n.far_and_near += usize::from(n.far > far && n.near > near);
        n.piece = (n.far, n.near);
        let again = n.retried_at.take();
        n.taken_back += usize::from(again.is_some_and(|k| k > 0));
        n.saved += usize::from(again.is_some() && failed_at.is_none());
        n.failed_again += usize::from(again.is_some() && failed_at.is_some());
        n.failed_elsewhere +=
            usize::from(again.is_some() && failed_at.is_some() && again != failed_at);
        n.not_retried += usize::from(again.is_none() && failed_at.is_some());
    });
}

pub fn met(listed: [f64; 2], asked: [f64; 2]) {
    if listed.map(f64::to_bits) != asked.map(f64::to_bits) {
        note(|n| n.other_bits += 1);
    }
}

pub fn turned(area: f64, marks: &[bool]) {
    note(|n| {
        n.turned += 1;
        n.turned_marked += usize::from(marks.contains(&true));
        n.turned_area += area;
    });
}

pub fn worst(measures: &[f64], index: usize) {
    if measures[..index].contains(&measures[index]) {
        note(|n| n.ties += 1);
    }
}
