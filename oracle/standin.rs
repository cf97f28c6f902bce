//! What stands in for `atan2`, `acos` and degrees, the straight middle, the set
//! of limits, and the test for a third corner. The extracted Rust calls these in
//! place of its own text.

use crate::job::Set;
use std::cell::Cell;

thread_local! {
    static LIMITS: Cell<Set> = const { Cell::new(Set::DELIVERED) };
    static THIRD_CORNER: Cell<bool> = const { Cell::new(true) };
}

/// From here on all is as it was before Card 11: its test is left out.
pub fn before_card_11() {
    THIRD_CORNER.set(false);
}

pub fn is_before() -> bool {
    !THIRD_CORNER.get()
}

/// The set of limits of the call that runs.
pub fn limits() -> Set {
    LIMITS.get()
}

/// A call with this set begins.
pub fn limited(set: Set) {
    LIMITS.set(set);
}

/// A chain point with a cosine below this is a corner: 25 degrees.
pub const SMOOTH_COSINE: f64 = 0.9063077870366499;

/// Measure of a corner whose steps in and out have cross `s` and dot `c`.
/// Coordinates are whole numbers of units, so a zero has no sign.
pub fn corner_measure(s: f64, c: f64) -> f64 {
    let (s, c) = (s + 0.0, c + 0.0);
    let q = s / (s.abs() + c.abs());
    if c >= 0.0 {
        2.0 - q
    } else if s >= 0.0 {
        q
    } else {
        4.0 + q
    }
}

/// Half the sum of the two listed ends, the same from either end.
pub fn middle(a: [f64; 2], b: [f64; 2]) -> [f64; 2] {
    [0.5 * (a[0] + b[0]), 0.5 * (a[1] + b[1])]
}

/// A point in whole units, exactly: it entered as units / 8192.
fn units(p: [f64; 2]) -> [i64; 2] {
    p.map(|x| (x * 8192.0) as i64)
}

/// Whether one of the points is strictly between v and q on their line: its
/// step from v has no part across the step from v to q, and along it a part
/// above 0 and below the whole.
pub fn runs_over(v: [f64; 2], q: [f64; 2], points: &[[f64; 2]]) -> bool {
    let (v, q) = (units(v), units(q));
    let [dx, dy] = [q[0] - v[0], q[1] - v[1]];
    let mut corners = points.iter().map(|&p| units(p));
    THIRD_CORNER.get()
        && corners.any(|p| {
            let [x, y] = [p[0] - v[0], p[1] - v[1]];
            let along = dx * x + dy * y;
            dx * y == dy * x && 0 < along && along < dx * dx + dy * dy
        })
}
