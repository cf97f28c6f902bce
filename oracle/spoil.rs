//! Rows that are wrong on purpose, for the programs `replay` and `desk`: copies of
//! right rows of their fixed lists, each with one bit turned in one word that is
//! compared. A program that takes one of them for right compares nothing there.
//!
//! spoil replay FOLDER     of rings.list every word that the row of a call has, a node
//!                         bit, a place and a number of its cells, and a mark; of the
//!                         lists of the other entries one each; blocks and pairs
//! spoil desk FOLDER       sheets, records of wear, smallest rings, crossings

use std::io::Write;

struct List {
    words: Vec<u32>,
    at: usize,
}

/// A row, and where in it stand the words that are compared.
struct Row {
    words: Vec<u32>,
    told: Vec<usize>,
}

impl List {
    fn read(folder: &str, name: &str) -> List {
        let bytes = std::fs::read(format!("{folder}/{name}.list")).expect("a fixed list");
        let word = |b: &[u8]| u32::from_le_bytes([b[0], b[1], b[2], b[3]]);
        let words = bytes.chunks_exact(4).map(word).collect();
        List { words, at: 0 }
    }

    fn word(&mut self) -> usize {
        self.at += 1;
        self.words[self.at - 1] as usize
    }

    fn skip(&mut self, count: usize) {
        self.at += count;
    }

    /// The next count words are compared.
    fn tell(&mut self, told: &mut Vec<usize>, count: usize) {
        told.extend(self.at..self.at + count);
        self.at += count;
    }

    /// What a call leaves: its row, the first new number's two words, the place and the first number of its cells, the first four marks.
    fn left(&mut self, told: &mut Vec<usize>) {
        self.tell(told, 12);
        let new = self.word();
        self.first(told, new * 2, 2);
        self.tell(told, 1);
        let cells = self.word();
        self.first(told, cells, 1);
        let marks = self.word();
        self.first(told, marks.div_ceil(4), 1);
    }

    /// Of so many words the first few are compared; the others too, by the same code.
    fn first(&mut self, told: &mut Vec<usize>, count: usize, few: usize) {
        self.tell(told, few.min(count));
        self.skip(count - few.min(count));
    }

    /// The next row of replay's lists; a set of limits or the word of the practice paper belongs to its call.
    fn replayed(&mut self) -> Option<Row> {
        let (start, mut told) = (self.at, Vec::new());
        self.words.get(start)?;
        let mut kind = self.word();
        if kind == 7 {
            self.skip(9);
            kind = self.word();
        } else if kind == 8 {
            kind = self.word();
        }
        match kind {
            1 => {
                let (places, used, rims) = (self.word(), self.word(), self.word());
                let listed = used.min(places);
                self.skip(listed * 4 + rims.min(listed).div_ceil(4));
            }
            2 => {
                self.skip(3);
                let numbers = self.word() + self.word();
                self.skip(numbers);
                self.left(&mut told);
            }
            3 => {
                self.skip(1);
                let bytes = self.word();
                self.skip(bytes);
                let accepted = self.words[self.at] == 0;
                self.tell(&mut told, if accepted { 5 } else { 1 });
                self.skip(if accepted { 119 } else { 0 });
            }
            4 => {
                self.skip(3);
                let numbers = self.word() + self.word();
                self.skip(numbers);
                self.tell(&mut told, 1);
                let written = self.word();
                self.first(&mut told, written, 1);
            }
            5 => {
                self.skip(3);
                let (ring, kinds, snaps) = (self.word(), self.word(), self.word());
                let (outline, loops) = (self.word(), self.word());
                self.skip(ring + kinds + snaps * 2 + outline + loops);
                self.left(&mut told);
            }
            _ => panic!("a row of replay's lists"),
        }
        Some(self.row(start, told))
    }

    /// The next row of desk's lists.
    fn desked(&mut self) -> Option<Row> {
        let (start, mut told) = (self.at, Vec::new());
        self.words.get(start)?;
        match self.word() {
            5 => {
                self.skip(2);
                let nodes = self.word();
                self.skip(1 + nodes * 2);
                self.tell(&mut told, 1);
                let written = self.word().div_ceil(4);
                self.first(&mut told, written, 1);
            }
            6 => {
                self.skip(4);
                let bytes = self.word();
                self.skip(bytes);
                self.tell(&mut told, 4);
                let left = self.word().div_ceil(4);
                self.first(&mut told, left, 1);
            }
            7 => {
                self.skip(1);
                let numbers = self.word() + self.word();
                self.skip(numbers);
                self.tell(&mut told, 4);
            }
            9 => {
                self.skip(8);
                self.tell(&mut told, 1);
            }
            _ => panic!("a row of desk's lists"),
        }
        Some(self.row(start, told))
    }

    fn row(&self, start: usize, told: Vec<usize>) -> Row {
        let words = self.words[start..self.at].to_vec();
        let told = told.iter().map(|at| at - start).collect();
        Row { words, told }
    }
}

impl Row {
    /// What the row has a word of each kind for: its number is 0.
    fn accepted(&self, words: usize) -> bool {
        self.told.len() >= words && self.words[self.told[0]] == 0
    }

    /// A copy for each of these words, with its lowest bit turned; before it what the row stands on.
    fn spoilt(&self, before: &[u32], which: &[usize], out: &mut Vec<u32>) {
        for k in which {
            let mut words = self.words.clone();
            words[self.told[*k]] ^= 1;
            out.extend(before);
            out.extend(words);
        }
    }
}

/// The first call that is accepted and comes first on its list, with the list.
fn call(folder: &str, name: &str, which: &[usize], out: &mut Vec<u32>) {
    let mut list = List::read(folder, name);
    let mut before = Vec::new();
    while let Some(row) = list.replayed() {
        if row.words[0] != 1 && !before.is_empty() && row.accepted(17) {
            return row.spoilt(&before, which, out);
        }
        before = if row.words[0] == 1 { row.words } else { Vec::new() };
    }
    panic!("an accepted call in {name}")
}

/// The first of these rows that will do.
fn first(rows: impl Iterator<Item = Row>, good: impl Fn(&Row) -> bool, out: &mut Vec<u32>) {
    let row = rows.into_iter().find(good).expect("such a row");
    let all: Vec<usize> = (0..row.told.len()).collect();
    row.spoilt(&[], &all, out)
}

fn replay(folder: &str, out: &mut Vec<u32>) {
    let all: Vec<usize> = (0..17).collect();
    call(folder, "rings", &all, out);
    for (name, word) in [("calls", 0), ("marks", 12), ("sets", 14), ("practice", 15), ("rims", 16)] {
        call(folder, name, &[word], out);
    }
    let rows = |name| {
        let mut list = List::read(folder, name);
        std::iter::from_fn(move || list.replayed())
    };
    first(rows("blocks"), |row| row.accepted(5), out);
    first(rows("blocks"), |row| row.told.len() == 1, out);
    first(rows("pairs"), |row| row.accepted(2), out);
}

fn desk(folder: &str, out: &mut Vec<u32>) {
    for (name, words) in [("sheets", 2), ("wear", 5), ("smallest", 4), ("crossings", 1)] {
        let mut list = List::read(folder, name);
        let rows = std::iter::from_fn(move || list.desked());
        first(rows, |row| row.accepted(words), out);
    }
}

fn main() {
    let arguments: Vec<String> = std::env::args().skip(1).collect();
    let mut out = Vec::new();
    match arguments.iter().map(String::as_str).collect::<Vec<_>>()[..] {
        ["replay", folder] => replay(folder, &mut out),
        ["desk", folder] => desk(folder, &mut out),
        _ => {
            eprintln!("use: spoil replay|desk FOLDER_OF_LISTS");
            std::process::exit(2)
        }
    }
    let bytes: Vec<u8> = out.iter().flat_map(|word| word.to_le_bytes()).collect();
    if std::io::stdout().write_all(&bytes).is_err() {
        std::process::exit(1)
    }
}
