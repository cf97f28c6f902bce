//! How two segments meet (Card 11): supplied ones with their answers, and what
//! we say of any. Crossing is the Rust's own; touching, which it has not, is
//! that an end of one lies on the other: on its line and in its box.

use crate::stage::segments_cross;

/// The ends a, b, c, d of the segments a-b and c-d in units, and the answer:
/// 0 apart, 1 touching, 2 crossing.
pub struct Case {
    pub ends: [[i32; 2]; 4],
    pub answer: u32,
}

fn on(a: [i32; 2], b: [i32; 2], p: [i32; 2]) -> bool {
    let step = |u: [i32; 2], v: [i32; 2]| [0, 1].map(|k| i64::from(v[k]) - i64::from(u[k]));
    let (d, e) = (step(a, b), step(a, p));
    let held = |k: usize| a[k].min(b[k]) <= p[k] && p[k] <= a[k].max(b[k]);
    d[0] * e[1] == d[1] * e[0] && held(0) && held(1)
}

pub fn answer([a, b, c, d]: [[i32; 2]; 4]) -> u32 {
    let mm = |p: [i32; 2]| p.map(|x| f64::from(x) / 8192.0);
    let touch = on(a, b, c) || on(a, b, d) || on(c, d, a) || on(c, d, b);
    let cross = segments_cross(mm(a), mm(b), mm(c), mm(d));
    assert!(!(touch && cross), "both touching and crossing");
    u32::from(touch) + 2 * u32::from(cross)
}

/// The supplied segments of FILE.cross, eight whole numbers a line, with the
/// answers of FILE.answers. Our own answer must be the supplied one.
pub fn cases(path: &str) -> Vec<Case> {
    let text =
        |end: &str| std::fs::read_to_string(format!("{path}.{end}")).expect("a supplied file");
    let (lines, answers) = (text("cross"), text("answers"));
    assert_eq!(lines.lines().count(), answers.lines().count());
    lines
        .lines()
        .zip(answers.lines())
        .map(|(line, told)| case(line, told))
        .collect()
}

fn case(line: &str, told: &str) -> Case {
    let numbers: Vec<i32> = line
        .split_whitespace()
        .map(|word| word.parse().expect("a coordinate"))
        .collect();
    assert_eq!(numbers.len(), 8);
    let ends = [0, 1, 2, 3].map(|k| [numbers[2 * k], numbers[2 * k + 1]]);
    let answer = answer(ends);
    assert_eq!(
        ["apart", "touching", "crossing"][answer as usize],
        told,
        "{line}"
    );
    Case { ends, answer }
}
