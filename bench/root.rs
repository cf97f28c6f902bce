// Runs the proved square root beside the processor's own: every answer compared, bit for bit, on patterns of each kind,
// then both timed on the same numbers. Arguments: patterns in millions (default 24), seed.
#[path = "../embed/ring_divide.rs"]
mod ring_divide;

use ring_divide::ring_root_bits;
use std::hint::black_box;
use std::time::Instant;

const NAN: u64 = 0x7ff8_0000_0000_0000;
const INF: u64 = 0x7ff0_0000_0000_0000;
const SIGN: u64 = 1 << 63;
const HIDDEN: u64 = 1 << 52;

// SplitMix64
struct Rng(u64);

impl Rng {
    fn next(&mut self) -> u64 {
        self.0 = self.0.wrapping_add(0x9e37_79b9_7f4a_7c15);
        let mut z = self.0;
        z = (z ^ (z >> 30)).wrapping_mul(0xbf58_476d_1ce4_e5b9);
        z = (z ^ (z >> 27)).wrapping_mul(0x94d0_49bb_1331_11eb);
        z ^ (z >> 31)
    }

    // a finite double above zero, every exponent as likely
    fn finite(&mut self) -> u64 {
        self.next() % (INF - 1) + 1
    }
}

struct Tally {
    run: u64,
    wrong: u64,
    nan: u64,
}

impl Tally {
    fn one(&mut self, b: u64) {
        // a compiler may take any NaN for any other, unless it does not see that it has one
        let own = black_box(f64::from_bits(b).sqrt().to_bits());
        let is_nan = own & !SIGN > INF;
        let expected = if is_nan { NAN } else { own };
        let got = ring_root_bits(b);
        self.run += 1;
        self.nan += is_nan as u64;
        if got != expected {
            self.wrong += 1;
            if self.wrong <= 10 {
                println!("DIFFERS {b:016x}: root_bits {got:016x}, processor {expected:016x}");
            }
        }
    }

    // b and the patterns up to n away
    fn around(&mut self, b: u64, n: u64) {
        for d in 0..=n {
            self.one(b.wrapping_add(d));
            self.one(b.wrapping_sub(d));
        }
    }
}

// every power of two, the ends of every range, the zeros, the infinities, both signs, and their neighbours
fn edges(t: &mut Tally) {
    for sign in [0, SIGN] {
        for e in 0..2048u64 {
            t.around(sign | (e * HIDDEN), 16);
        }
        for k in 0..52 {
            t.around(sign | (1 << k), 16);
        }
        t.around(sign, 1 << 16);
        t.around(sign | INF, 1 << 16);
        t.around(sign | HIDDEN, 1 << 16);
    }
}

// A double next to a power of 4 times the square of s, which has 54 digits: the root is next to a double where s is even,
// and next to the middle of two doubles, where rounding is hardest, where s is odd.
fn near_square(s: u64, half_exponent: u64) -> u64 {
    let square = (s as u128) * (s as u128);
    let digits = 128 - square.leading_zeros() as u64;
    let m = (square >> (digits - 53)) as u64;
    ((2 * half_exponent + digits % 2) << 52) | (m & (HIDDEN - 1))
}

fn kinds(t: &mut Tally, r: &mut Rng, rounds: u64) {
    for _ in 0..rounds {
        t.one(r.next());
        t.one(r.finite());
        t.one(r.finite());
        t.one(r.next() % HIDDEN); // subnormal
        let digits = 1 + r.next() % 52;
        t.one(r.next() % (1 << digits)); // subnormal, of any number of digits
        t.one((r.next() << 63) | INF | (1 + r.next() % (HIDDEN - 1))); // NaN, of either sign
        t.one(SIGN | r.finite());
        let y = f64::from_bits(r.finite());
        t.one((y * y).to_bits()); // a square, rounded
        let s = (1 << 53) | (r.next() >> 11);
        let n = near_square(s, 1 + r.next() % 1022);
        t.one(n);
        t.one(n.wrapping_add(1));
        t.one(n.wrapping_sub(1));
        let k = r.next() % (1 << 27); // a small square, exact
        t.one(((k * k) as f64).to_bits());
    }
}

fn time(name: &str, xs: &[f64]) {
    let bits: Vec<u64> = xs.iter().map(|x| x.to_bits()).collect();
    let rounds = 20;
    let calls = (rounds * xs.len()) as f64;
    let mut best = [f64::MAX; 2];
    for _ in 0..50 {
        let start = Instant::now();
        for _ in 0..rounds {
            for &b in black_box(&bits[..]) {
                black_box(ring_root_bits(b));
            }
        }
        best[0] = best[0].min(start.elapsed().as_nanos() as f64 / calls);
        let start = Instant::now();
        for _ in 0..rounds {
            for &x in black_box(xs) {
                black_box(x.sqrt());
            }
        }
        best[1] = best[1].min(start.elapsed().as_nanos() as f64 / calls);
    }
    println!("| {name} | {:.1} | {:.1} |", best[0], best[1]);
}

fn main() {
    let args: Vec<String> = std::env::args().collect();
    let millions: u64 = args.get(1).map_or(24, |a| a.parse().expect("patterns in millions"));
    let seed: u64 = args.get(2).map_or(1, |a| a.parse().expect("seed"));
    let mut r = Rng(seed);
    let mut t = Tally { run: 0, wrong: 0, nan: 0 };
    edges(&mut t);
    while t.run < millions * 1_000_000 {
        kinds(&mut t, &mut r, 10_000);
    }
    println!("{} patterns, {} of them below zero or NaN, {} differ (seed {seed}); ns a call:\n", t.run, t.nan, t.wrong);
    println!("| numbers | root_bits | processor |");
    println!("|---|---:|---:|");

    let mut lengths = Vec::new();
    let mut any = Vec::new();
    for _ in 0..1 << 14 {
        lengths.push((r.next() % (1 << 49)) as f64 / 67108864.0);
        any.push(f64::from_bits(r.finite()));
    }
    time("squares of lengths on the sheet", &lengths);
    time("any finite double above zero", &any);
    std::process::exit((t.wrong != 0) as i32);
}
