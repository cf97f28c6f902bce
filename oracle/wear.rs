//! The record of wear: supplied calls with their answers, and what our own
//! record says of any. The original keeps none.

use crate::random::Random;
use std::collections::VecDeque;

/// A call of `wear_add` with its answer: code, total, highest, rings, and the
/// record as it comes back.
pub struct Case {
    pub record: Vec<u8>,
    pub code: u64,
    pub cuts: u64,
    pub values: [u64; 4],
    pub left: Vec<u8>,
}

/// The rings that a record holds, the oldest first; none where it is refused.
fn held(record: &[u8]) -> Option<VecDeque<u8>> {
    if record.len() != 34 {
        return None;
    }
    let (rings, next) = (usize::from(record[32]), usize::from(record[33]));
    let placed = if rings < 32 { next == rings } else { next < 32 };
    if rings > 32 || !placed || record[..rings].iter().any(|cuts| *cuts > 32) {
        return None;
    }
    let mut held: VecDeque<u8> = record[..rings].iter().copied().collect();
    held.rotate_left(next % rings.max(1));
    Some(held)
}

/// What must be answered, and the record afterwards.
pub fn answer(record: &[u8], code: u64, cuts: u64) -> ([u64; 4], Vec<u8>) {
    let mut left = record.to_vec();
    let Some(mut rings) = held(record) else {
        return ([20, 0, 0, 0], left);
    };
    if code == 0 {
        if cuts > 32 {
            return ([20, 0, 0, 0], left);
        }
        rings.push_back(cuts as u8);
        if rings.len() > 32 {
            rings.pop_front();
        }
        let next = usize::from(record[33]);
        left[next] = cuts as u8;
        left[32] = rings.len() as u8;
        left[33] = if next == 31 { 0 } else { next as u8 + 1 };
    }
    let total = rings.iter().map(|cuts| u64::from(*cuts)).sum();
    let highest = rings.iter().max().copied().unwrap_or(0).into();
    ([0, total, highest, rings.len() as u64], left)
}

/// The supplied calls of FILE.cases with the answers of FILE.expect. Our own
/// answer must be the supplied one.
pub fn cases(path: &str) -> Vec<Case> {
    let text =
        |end: &str| std::fs::read_to_string(format!("{path}.{end}")).expect("a supplied file");
    let (calls, answers) = (text("cases"), text("expect"));
    assert_eq!(calls.lines().count(), answers.lines().count());
    let mut record = Vec::new();
    let mut cases = Vec::new();
    for (call, told) in calls.lines().zip(answers.lines()) {
        let words: Vec<&str> = call.split_whitespace().collect();
        match words.as_slice() {
            ["record", hex] => record = bytes(hex),
            ["add", code, cuts] => {
                let case = case(&record, number(code), number(cuts), told);
                record.clone_from(&case.left);
                cases.push(case);
            }
            _ => panic!("no call: {call}"),
        }
    }
    cases
}

fn case(record: &[u8], code: u64, cuts: u64, told: &str) -> Case {
    let (values, left) = answer(record, code, cuts);
    let fields: Vec<&str> = told.split_whitespace().collect();
    let supplied: Vec<u64> = fields[..4].iter().map(|n| number(n)).collect();
    assert_eq!((supplied, bytes(fields[4])), (values.to_vec(), left.clone()));
    let record = record.to_vec();
    Case {
        record,
        code,
        cuts,
        values,
        left,
    }
}

fn number(word: &str) -> u64 {
    word.parse().expect("a number")
}

/// `-` stands for no bytes.
fn bytes(hex: &str) -> Vec<u8> {
    let digits = if hex == "-" { "" } else { hex };
    let byte = |k: usize| u8::from_str_radix(&digits[2 * k..2 * k + 2], 16).expect("a byte");
    (0..digits.len() / 2).map(byte).collect()
}

/// A record to begin with: the empty one, a valid one, or one with a fault.
pub fn begun(random: &mut Random) -> Vec<u8> {
    if random.one_in(3) {
        return vec![0; 34];
    }
    let mut record: Vec<u8> = (0..34).map(|_| random.below(33) as u8).collect();
    record[33] = match record[32] {
        32 => random.below(32) as u8,
        rings => rings,
    };
    if random.one_in(4) {
        let place = random.below(34);
        record[place] = random.below(256) as u8;
    }
    record.resize(34 - usize::from(random.one_in(20)), 0);
    record
}

/// An answer: accepted, most with few cuts, or refused.
pub fn answered(random: &mut Random) -> (u64, u64) {
    match random.below(8) {
        0 => (random.between(1, 20) as u64, random.bits()),
        1 => (0, random.between(28, 34) as u64),
        2 if random.one_in(9) => (0, random.bits()),
        _ => (0, random.below(33) as u64),
    }
}
