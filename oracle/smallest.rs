//! The smallest ring still refused: supplied calls with their answers, rings at
//! random, and what trying every choice through the Rust says of any.

use crate::call::NodeList;
use crate::forms::run;
use crate::job::Job;
use crate::random::Random;

/// What `smallest_refused` is handed, two numbers a point.
#[derive(Clone, Debug, Default)]
pub struct Case {
    pub ring: Vec<i32>,
    pub chain: Vec<i32>,
    pub size: u32,
}

/// Code, refusal, choice, points.
pub type Answer = [u64; 4];

/// Places of the trial lists: the reserve of 12 points.
const NODES: usize = 55;
const CELLS: usize = 30;

/// The number of a ring on an empty list.
fn number(ring: &[[i32; 2]], chain: &[[i32; 2]], size: u32) -> u64 {
    let job = Job {
        ring: ring.to_vec(),
        chain: chain.to_vec(),
        size,
    };
    let list = &mut NodeList::empty(NODES);
    run(&job, list, CELLS, 0).answer.code.into()
}

fn points(numbers: &[i32]) -> Vec<[i32; 2]> {
    numbers.chunks_exact(2).map(|p| [p[0], p[1]]).collect()
}

/// What must be answered: every choice is tried, and the least of those with the
/// ring's own number taken, by its count and then by its number.
pub fn answer(case: &Case) -> Answer {
    let (ring, chain) = (points(&case.ring), points(&case.chain));
    if case.ring.len() % 2 + case.chain.len() % 2 > 0 {
        return [1, 0, 0, 0];
    }
    let own = number(&ring, &chain, case.size);
    if own == 1 || own == 2 {
        return [own, 0, 0, 0];
    }
    if ring.len() > 12 {
        return [18, 0, 0, 0];
    }
    if !(5..=8).contains(&own) {
        return [19, 0, 0, 0];
    }
    let (count, choice) = (0..1u32 << ring.len())
        .filter(|choice| choice.count_ones() >= 3)
        .filter(|choice| number(&chosen(&ring, *choice), &chain, case.size) == own)
        .map(|choice| (choice.count_ones(), choice))
        .min()
        .expect("the ring itself is a choice");
    [0, own, choice.into(), count.into()]
}

fn chosen(ring: &[[i32; 2]], choice: u32) -> Vec<[i32; 2]> {
    let taken = |i: &usize| choice >> i & 1 == 1;
    (0..ring.len()).filter(taken).map(|i| ring[i]).collect()
}

/// The supplied calls of FILE.calls, with the answers of FILE.detail.
pub fn cases(path: &str) -> Vec<(Case, Answer)> {
    let text =
        |end: &str| std::fs::read_to_string(format!("{path}.{end}")).expect("a supplied file");
    let (calls, answers) = (text("calls"), text("detail"));
    let calls: Vec<&str> = calls.lines().filter(|l| l.starts_with("smallest ")).collect();
    assert_eq!(calls.len(), answers.lines().count());
    let pair = |(call, told): (&&str, &str)| (case(call), told_of(told));
    calls.iter().zip(answers.lines()).map(pair).collect()
}

fn case(call: &str) -> Case {
    let mut case = Case::default();
    for word in call.split_whitespace().skip(1) {
        let (name, value) = word.split_once('=').expect("a name and its value");
        let numbers = || value.split(',').filter(|n| !n.is_empty());
        let read = || numbers().map(|n| n.parse().expect("a coordinate")).collect();
        match name {
            "size" => case.size = value.parse().expect("a size"),
            "ring" => case.ring = read(),
            "chain" => case.chain = read(),
            _ => panic!("no field of a call: {word}"),
        }
    }
    case
}

/// `smallest NUMBER code C refusal R choice X points P`
fn told_of(line: &str) -> Answer {
    let words: Vec<&str> = line.split_whitespace().collect();
    [3, 5, 7, 9].map(|k| words[k].parse().expect("a number"))
}

/// A ring at random, of a few units or of mm, most of them of one shape that is
/// refused; a third of them with a chain along some of its points.
pub fn tried(random: &mut Random) -> Case {
    let most = if random.one_in(40) { 14 } else { 12 };
    let count = random.between(3, most) as usize;
    let ring: Vec<[i32; 2]> = match random.below(5) {
        0 => scattered(random, count, 4, 1),
        1 => scattered(random, count, 6, 8_192),
        2 => scattered(random, count, 90_000, 1),
        3 => around(random, count, 0.05),
        _ => around(random, count, 0.7),
    };
    let mut chain: Vec<[i32; 2]> = Vec::new();
    if random.one_in(3) {
        let first = random.below(count);
        for i in 0..random.below(count) + 1 {
            let (a, b) = (ring[(first + i) % count], ring[(first + i + 1) % count]);
            let bow = random.between(-3, 3) as i32 * 2_000;
            chain.extend([a, [(a[0] + b[0]) / 2 + bow, (a[1] + b[1]) / 2 - bow], b]);
        }
    }
    Case {
        ring: ring.concat(),
        chain: chain.concat(),
        size: [1, 12, 900, 2_048][random.below(4)],
    }
}

fn scattered(random: &mut Random, count: usize, most: i64, unit: i32) -> Vec<[i32; 2]> {
    let mut at = || random.between(0, most) as i32 * unit;
    (0..count).map(|_| [at(), at()]).collect()
}

/// Points at rising angles, each at a distance from `inner` to 1 of 20 mm; one in
/// four clockwise.
fn around(random: &mut Random, count: usize, inner: f64) -> Vec<[i32; 2]> {
    let mut ring: Vec<[i32; 2]> = (0..count)
        .map(|i| {
            let turn = (i as f64 + 0.8 * random.share()) / count as f64 * std::f64::consts::TAU;
            let far = random.within(inner, 1.0) * 163_840.0;
            [(far * turn.cos()) as i32, (far * turn.sin()) as i32]
        })
        .collect();
    if random.one_in(4) {
        ring.reverse();
    }
    ring
}
