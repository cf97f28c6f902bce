//! A window: a lattice of panes over the sheet, whose neighbours share corners and edges.
//!
//! Corners and the points of an edge between them are moved a little, by numbers that a place of the lattice always has, so
//! both panes of an edge see the same points.

use crate::call::FARTHEST;
use crate::job::Job;

/// How many points stand between the ends of an edge.
#[derive(Clone, Copy)]
pub enum Between {
    Each(i64),
    UpTo(i64),
}

impl Between {
    /// The points of a pane, in words.
    pub fn points(self) -> String {
        match self {
            Between::Each(k) => (4 * (k + 1)).to_string(),
            Between::UpTo(k) => format!("4 to {}", 4 * (k + 1)),
        }
    }
}

/// Panes in a row and in a column, the side of a pane in units, and the points between.
#[derive(Clone, Copy)]
pub struct Window {
    columns: i64,
    side: i64,
    between: Between,
}

impl Window {
    /// A window with panes enough for a list of so many places.
    pub fn new(places: usize, between: Between) -> Self {
        let nodes_a_pane = match between {
            Between::Each(_) => 12.0,
            Between::UpTo(_) => 10.0,
        };
        let columns = (places as f64 / nodes_a_pane).sqrt().ceil() as i64;
        let side = (2 * i64::from(FARTHEST) / columns).min(64 * 8_192);
        Window {
            columns,
            side,
            between,
        }
    }

    /// The panes, row after row.
    pub fn panes(self) -> impl Iterator<Item = Job> {
        let all = 0..self.columns * self.columns;
        all.map(move |k| self.pane(k % self.columns, k / self.columns))
    }

    /// A number within a ninth of a pane's side either way.
    fn jitter(self, x: i64, y: i64, salt: i64) -> i64 {
        number(x, y, salt) % (2 * self.side / 9 + 1) - self.side / 9
    }

    /// Where the corner x, y of the lattice lies.
    fn corner(self, x: i64, y: i64) -> [i64; 2] {
        [
            x * self.side + self.jitter(x, y, 0),
            y * self.side + self.jitter(x, y, 1),
        ]
    }

    /// A corner of the lattice and the points between it and the next, to the right of it or above it.
    fn edge(self, x: i64, y: i64, up: bool) -> Vec<[i64; 2]> {
        let (dx, dy) = if up { (0, 1) } else { (1, 0) };
        let (a, b) = (self.corner(x, y), self.corner(x + dx, y + dy));
        let count = match self.between {
            Between::Each(k) => k,
            Between::UpTo(k) => number(x, y, 2 + dy) % (k + 1),
        };
        let point = |k: i64| {
            let off = if k == 0 {
                0
            } else {
                self.jitter(x, y, 4 + 2 * k + dy) / (count + 1)
            };
            [
                a[0] + (b[0] - a[0]) * k / (count + 1) + dy * off,
                a[1] + (b[1] - a[1]) * k / (count + 1) + dx * off,
            ]
        };
        (0..=count).map(point).collect()
    }

    /// The same from its other end, which is the corner it starts with.
    fn back(self, x: i64, y: i64, up: bool) -> Vec<[i64; 2]> {
        let mut points = self.edge(x, y, up);
        points.push(if up {
            self.corner(x, y + 1)
        } else {
            self.corner(x + 1, y)
        });
        points.remove(0);
        points.reverse();
        points
    }

    /// The pane whose lower left corner is x, y.
    fn pane(self, x: i64, y: i64) -> Job {
        let sides = [
            self.edge(x, y, false),
            self.edge(x + 1, y, true),
            self.back(x, y + 1, false),
            self.back(x, y, true),
        ];
        let middle = self.columns * self.side / 2;
        let farthest = i64::from(FARTHEST);
        let held = |c: i64| (c - middle).clamp(-farthest, farthest) as i32;
        Job {
            ring: sides.concat().iter().map(|p| p.map(held)).collect(),
            chain: Vec::new(),
            size: 2048,
        }
    }
}

/// A number that a place of the lattice always has.
fn number(x: i64, y: i64, salt: i64) -> i64 {
    let mut z = (x * 0x100_0000 + y * 0x40 + salt) as u64;
    z = z.wrapping_add(0x9e37_79b9_7f4a_7c15);
    z = (z ^ (z >> 30)).wrapping_mul(0xbf58_476d_1ce4_e5b9);
    z = (z ^ (z >> 27)).wrapping_mul(0x94d0_49bb_1331_11eb);
    (z >> 33) as i64
}
