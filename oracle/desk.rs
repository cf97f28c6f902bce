//! The calls of the block writer: supplied ones with their answers, and what
//! our own writing of blocks says of any.

use crate::emit;
use crate::job::{Job, BLOCK, POINTS};

/// A call of `blocks_write` with its answer: the number, and the bytes that are
/// written, from the front; all others stay as found.
pub struct Case {
    pub ring: Vec<i32>,
    pub chain: Vec<i32>,
    pub size: u32,
    pub number: u32,
    pub room: usize,
    pub code: u32,
    pub written: Vec<u8>,
}

/// What must be answered, and the bytes of the pair where it is 0.
pub fn answer(ring: &[i32], chain: &[i32], size: u32, number: u32, room: usize) -> (u32, Vec<u8>) {
    let odd = ring.len() % 2 + chain.len() % 2 > 0;
    let (r, c) = (ring.len() / 2, chain.len() / 2);
    if odd || !(3..=POINTS).contains(&r) || c > POINTS {
        return (1, Vec::new());
    }
    let beyond = |x: &i32| x.unsigned_abs() > 8_388_608;
    if ring.iter().chain(chain).any(beyond) || !(1..=2_048).contains(&size) {
        return (2, Vec::new());
    }
    if room < 2 * BLOCK || number % 2 > 0 || number > 65_534 {
        return (12, Vec::new());
    }
    let points = |numbers: &[i32]| numbers.chunks(2).map(|p| [p[0], p[1]]).collect();
    let job = Job {
        ring: points(ring),
        chain: points(chain),
        size,
    };
    (0, emit::blocks(&job, number as usize))
}

/// The supplied calls of FILE.cases with the answers of FILE.expect. Our own
/// answer must be the supplied one.
pub fn cases(path: &str) -> Vec<Case> {
    let text =
        |end: &str| std::fs::read_to_string(format!("{path}.{end}")).expect("a supplied file");
    let (calls, answers) = (text("cases"), text("expect"));
    assert_eq!(calls.lines().count(), answers.lines().count());
    calls
        .lines()
        .zip(answers.lines())
        .map(|(call, told)| case(call, told))
        .collect()
}

fn case(call: &str, told: &str) -> Case {
    let mut words = call.split_whitespace();
    assert_eq!(words.next(), Some("write"));
    let mut next = || {
        words
            .next()
            .expect("a field")
            .parse::<usize>()
            .expect("a number")
    };
    let (size, number, room) = (next() as u32, next() as u32, next());
    let (r, c) = (next(), next());
    let numbers: Vec<i32> = words.flat_map(repeated).collect();
    assert_eq!(numbers.len(), r + c);
    let (ring, chain) = (numbers[..r].to_vec(), numbers[r..].to_vec());
    let (code, written) = answer(&ring, &chain, size, number, room);
    let mut fields = told.split_whitespace().skip(2);
    assert_eq!(fields.next(), Some(code.to_string().as_str()), "{told}");
    assert_eq!(bytes(fields), written, "{told}");
    Case {
        ring,
        chain,
        size,
        number,
        room,
        code,
        written,
    }
}

/// A number, or `K*n` for K times n.
fn repeated(word: &str) -> Vec<i32> {
    let number = |n: &str| n.parse().expect("a coordinate");
    match word.split_once('*') {
        Some((k, n)) => vec![number(n); k.parse().expect("a count")],
        None => vec![number(word)],
    }
}

/// The written bytes of a destination: `xHEX` bytes, `zN` zeros; `.N`, bytes as
/// found, come last.
fn bytes<'a>(fields: impl Iterator<Item = &'a str>) -> Vec<u8> {
    let mut written = Vec::new();
    for field in fields {
        let (form, rest) = field.split_at(1);
        match form {
            "x" => written.extend(
                (0..rest.len() / 2)
                    .map(|k| u8::from_str_radix(&rest[2 * k..2 * k + 2], 16).expect("a byte")),
            ),
            "z" => written.resize(written.len() + rest.parse::<usize>().expect("a count"), 0),
            _ => break,
        }
    }
    written
}
