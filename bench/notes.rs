//! What the answer needs of the notes that the Rust makes on its way, so that the clock holds no others: cuts and turned area.

use std::cell::Cell;

#[derive(Clone, Copy, Default)]
pub struct Notes {
    pub cuts: usize,
    pub turned_area: f64,
}

thread_local! {
    static NOTES: Cell<Notes> = Cell::new(Notes::default());
}

pub fn take() -> Notes {
    NOTES.replace(Notes::default())
}

pub fn look() -> Notes {
    NOTES.get()
}

pub fn cut() {
    let mut notes = look();
    notes.cuts += 1;
    NOTES.set(notes);
}

pub fn turned(area: f64, _: &[bool]) {
    let mut notes = look();
    notes.turned_area += area;
    NOTES.set(notes);
}

pub fn spent() {}
pub fn far() {}
pub fn near(_: [f64; 2], _: [f64; 2]) {}
pub fn retried(_: usize) {}
pub fn piece_done(_: Option<usize>) {}
pub fn met(_: [f64; 2], _: [f64; 2]) {}
pub fn worst(_: &[f64], _: usize) {}
