//! The time of `smallest_refused` on rings of 12 points: of each number that they are refused with, how many, mean and most; and
//! the time of trying all 4,017 choices of 3 points or more, as a call would whose smallest choice is the ring itself. Processor
//! time of the thread, the least of five runs. Arguments: rings (default 20,000), seed.

#[path = "../oracle/random.rs"]
#[allow(dead_code)]
mod random;
#[path = "../embed/ring_divide.rs"]
mod ring_divide;

use random::Random;
use ring_divide::{smallest_refused, Smallest};
use std::collections::BTreeMap;
use std::hint::black_box;

#[repr(C)]
struct Time {
    seconds: i64,
    nanoseconds: i64,
}

extern "C" {
    fn clock_gettime(clock: i32, time: *mut Time) -> i32;
}

/// CLOCK_THREAD_CPUTIME_ID of Linux.
const THREAD: i32 = 3;

const POINTS: usize = 12;

fn now() -> i64 {
    let mut time = Time {
        seconds: 0,
        nanoseconds: 0,
    };
    unsafe { clock_gettime(THREAD, &mut time) };
    time.seconds * 1_000_000_000 + time.nanoseconds
}

fn call(ring: &[[i32; 2]]) -> Smallest {
    smallest_refused(&ring.concat(), &[], 1)
}

/// The least of five runs, in ns.
fn timed(work: impl Fn()) -> i64 {
    let run = || {
        let start = now();
        work();
        now() - start
    };
    (0..5).map(|_| run()).min().unwrap_or(0)
}

/// Points anywhere, or at rising angles at distances from `inner` to 1 of 20 mm.
fn ring(random: &mut Random) -> Vec<[i32; 2]> {
    if random.one_in(3) {
        let mut at = || random.between(-99_999, 99_999) as i32;
        return (0..POINTS).map(|_| [at(), at()]).collect();
    }
    let inner = [0.02, 0.1, 0.3, 0.9][random.below(4)];
    let point = |i: usize| {
        let turn = (i as f64 + 0.9 * random.share()) / POINTS as f64 * std::f64::consts::TAU;
        let far = random.within(inner, 1.0) * 163_840.0;
        [(far * turn.cos()) as i32, (far * turn.sin()) as i32]
    };
    (0..POINTS).map(point).collect()
}

fn main() {
    let mut arguments = std::env::args().skip(1).map(|n| n.parse::<u64>().expect("a number"));
    let (rings, seed) = (arguments.next().unwrap_or(20_000), arguments.next().unwrap_or(1));
    let mut random = Random::new(seed);
    let mut times: BTreeMap<(u64, u64), Vec<i64>> = BTreeMap::new();
    let mut worst = 0;
    for k in 0..rings {
        let ring = ring(&mut random);
        let s = call(&ring);
        let time = timed(|| {
            black_box(call(&ring));
        });
        times.entry((s.refusal, s.points)).or_default().push(time);
        if k % 100 == 0 {
            worst = every(&ring).max(worst);
        }
    }
    println!("| refused with | points of the choice | rings | mean | most |\n|---:|---:|---:|---:|---:|");
    for ((refusal, points), t) in times {
        let (mean, most) = (t.iter().sum::<i64>() / t.len() as i64, t.iter().max().unwrap_or(&0));
        println!("| {refusal} | {points} | {} | {:.1} | {:.1} |", t.len(), mean as f64 / 1e3, *most as f64 / 1e3);
    }
    println!("\nTrying all the choices of a ring takes at most {:.1} ms; the goal is 50.", worst as f64 / 1e6);
}

/// What trying all the choices takes: each choice that is divided is a call of one run, and those that are refused are taken to
/// take as much.
fn every(ring: &[[i32; 2]]) -> i64 {
    let chosen = |choice: u32| -> Vec<[i32; 2]> { (0..POINTS).filter(|i| choice >> i & 1 == 1).map(|i| ring[i]).collect() };
    let choices: Vec<Vec<[i32; 2]>> = (0..1 << POINTS).filter(|c: &u32| c.count_ones() >= 3).map(chosen).collect();
    let divided: Vec<&Vec<[i32; 2]>> = choices.iter().filter(|c| call(c).code == 19).collect();
    let time = timed(|| {
        for choice in &divided {
            black_box(call(choice));
        }
    });
    time * choices.len() as i64 / divided.len().max(1) as i64
}
