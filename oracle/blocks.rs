//! Reading job blocks, in pairs of a ring and its chain.

use crate::job::{check, Job, BLOCK, CHECKED, POINTS};

/// A refused block, with its number from 0.
pub struct Refused {
    pub block: usize,
    pub code: u8,
}

/// The jobs of an input, ending with the refusal if there is one.
pub struct Jobs<'a> {
    bytes: &'a [u8],
    next: usize,
    ended: bool,
}

impl<'a> Jobs<'a> {
    pub fn new(bytes: &'a [u8]) -> Self {
        Jobs {
            bytes,
            next: 0,
            ended: false,
        }
    }

    /// The next block, tested in rising order of the refusals.
    fn block(&mut self, kind: u8) -> Result<&'a [u8], Refused> {
        let number = self.next;
        let refuse = |code| Refused {
            block: number,
            code,
        };
        let rest = &self.bytes[number * BLOCK..];
        if rest.len() < BLOCK {
            return Err(refuse(9));
        }
        let block = &rest[..BLOCK];
        if check(block) != u32::from_le_bytes(four(block, CHECKED)) {
            return Err(refuse(10));
        }
        if !well_formed(block, kind, number) {
            return Err(refuse(11));
        }
        self.next += 1;
        Ok(block)
    }

    fn job(&mut self) -> Result<Job, Refused> {
        let ring = self.block(1)?;
        let chain = self.block(2)?;
        let size = u32::from(u16::from_le_bytes([ring[484], ring[485]]));
        Ok(Job {
            ring: points(ring),
            chain: points(chain),
            size,
        })
    }
}

impl Iterator for Jobs<'_> {
    type Item = Result<Job, Refused>;

    fn next(&mut self) -> Option<Self::Item> {
        if self.ended || self.next * BLOCK == self.bytes.len() {
            return None;
        }
        let job = self.job();
        self.ended = job.is_err();
        Some(job)
    }
}

/// Kind, count, number and unused bytes as they must be.
fn well_formed(block: &[u8], kind: u8, number: usize) -> bool {
    let count = usize::from(block[1]);
    if block[0] != kind || count > POINTS {
        return false;
    }
    if usize::from(u16::from_le_bytes([block[2], block[3]])) != number {
        return false;
    }
    let zero = |range: std::ops::Range<usize>| block[range].iter().all(|&b| b == 0);
    zero(4 + 8 * count..484) && zero(486..CHECKED) && (kind == 1 || zero(484..486))
}

fn four(block: &[u8], at: usize) -> [u8; 4] {
    [block[at], block[at + 1], block[at + 2], block[at + 3]]
}

fn points(block: &[u8]) -> Vec<[i32; 2]> {
    let place = |k: usize| i32::from_le_bytes(four(block, 4 + 4 * k));
    (0..usize::from(block[1]))
        .map(|i| [place(2 * i), place(2 * i + 1)])
        .collect()
}
