//! Damaged block files: short, changed, renumbered, repeated, left out.

use crate::emit::{blocks, seal};
use crate::job::{Job, BLOCK};
use crate::random::Random;

/// A file of a few jobs with one damage, or none.
pub fn file(random: &mut Random, job: impl Fn(&mut Random, usize) -> Job) -> Vec<u8> {
    let jobs = random.below(4);
    let mut bytes = Vec::new();
    for k in 0..jobs {
        bytes.extend(blocks(&job(random, k), 2 * k));
    }
    let count = bytes.len() / BLOCK;
    if count == 0 {
        bytes.resize(
            random.pick(&[0, 1, 511, 512, 513, 1_024]),
            random.pick(&[0, 1, 255]),
        );
        return bytes;
    }
    let at = random.below(count) * BLOCK;
    match random.below(10) {
        0 => bytes.truncate(random.below(bytes.len())),
        1 => bytes.truncate(at),
        2 => flip(random, &mut bytes[at..at + BLOCK]),
        3 => drop(bytes.drain(at..at + BLOCK)),
        4 => bytes.extend(vec![0; random.pick(&[1, 4, 511])]),
        5 => bytes.extend_from_within(at..at + BLOCK),
        6..=8 => rewrite(random, &mut bytes[at..at + BLOCK]),
        _ => {}
    }
    bytes
}

/// One bit of a block, the check left as it was.
fn flip(random: &mut Random, block: &mut [u8]) {
    block[random.below(BLOCK)] ^= 1 << random.below(8);
}

/// A field changed and the check made right again; one in four also has a
/// wrong check, so that two refusals are due.
fn rewrite(random: &mut Random, block: &mut [u8]) {
    let other = 1 + random.below(255) as u8;
    match random.below(7) {
        0 => block[0] = random.pick(&[0, 1, 2, 3, 255]),
        1 => block[1] = random.pick(&[0, 1, 59, 60, 61, 255]),
        2 => block[2] ^= other,
        3 => block[3] ^= other,
        4 => block[484 + random.below(2)] ^= other,
        5 => block[486 + random.below(22)] ^= other,
        _ => {
            let unused = 4 + 8 * usize::from(block[1]).min(59);
            block[unused + random.below(484 - unused)] ^= other;
        }
    }
    seal(block);
    if random.one_in(4) {
        block[508] ^= other;
    }
}

/// A file of 65,536 empty jobs' blocks and then `after` bytes of another:
/// block 65,536 has no number.
pub fn past_the_last_number(after: usize) -> Vec<u8> {
    let mut bytes = Vec::new();
    for number in (0..65_538).step_by(2) {
        bytes.extend(blocks(&Job::default(), number));
    }
    bytes.truncate(65_536 * BLOCK + after);
    bytes
}
