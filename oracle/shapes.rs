//! Outlines of rings, counter-clockwise, within -1 to 1 each way. Circles are
//! drawn by fractions, so no library's sine decides a coordinate.

use crate::random::Random;

pub type Outline = Vec<[f64; 2]>;

/// The point of the unit circle at `turn` quarters, by its rational form.
pub fn on_circle(turn: f64) -> [f64; 2] {
    let quarter = turn.floor();
    let t = turn - quarter;
    let (c, s) = ((1.0 - t * t) / (1.0 + t * t), 2.0 * t / (1.0 + t * t));
    match quarter.rem_euclid(4.0) as u8 {
        0 => [c, s],
        1 => [-s, c],
        2 => [-c, -s],
        _ => [s, -c],
    }
}

fn at_radius(turn: f64, radius: f64) -> [f64; 2] {
    on_circle(turn).map(|c| c * radius)
}

/// Points at rising angles, at radii from `inner` to 1.
pub fn star(random: &mut Random, count: usize, inner: f64) -> Outline {
    let mut turns: Vec<f64> = (0..count).map(|_| random.within(0.0, 4.0)).collect();
    turns.sort_by(f64::total_cmp);
    turns
        .iter()
        .map(|&t| at_radius(t, random.within(inner, 1.0)))
        .collect()
}

/// A wheel of even steps whose radii repeat: every corner may be bad.
pub fn wheel(random: &mut Random, count: usize) -> Outline {
    let inner = random.pick(&[1.0, 1.0, 0.97, 0.9, 0.7, 0.4]);
    let every = 2 + random.below(3);
    let radius = |k: usize| if k % every == 0 { inner } else { 1.0 };
    (0..count)
        .map(|k| at_radius(4.0 * k as f64 / count as f64, radius(k)))
        .collect()
}

/// A bar with teeth upwards.
pub fn comb(random: &mut Random, teeth: usize) -> Outline {
    let pitch = 2.0 / teeth as f64;
    let lean = random.within(-0.2, 0.2) * pitch;
    let even = random.one_in(2);
    let mut outline = vec![[-1.0, -1.0], [1.0, -1.0]];
    for tooth in (0..teeth).rev() {
        let left = -1.0 + pitch * tooth as f64;
        let gap = if even { 0.5 } else { random.within(0.1, 0.9) };
        let top = if even { 1.0 } else { random.within(0.0, 1.0) };
        outline.push([left + pitch, top]);
        outline.push([left + pitch * gap + lean, top]);
        outline.push([left + pitch * gap, -0.5]);
        outline.push([left, -0.5]);
    }
    outline
}

/// A strip that winds inwards and back.
pub fn spiral(random: &mut Random, steps: usize) -> Outline {
    let turns = random.within(2.0, 11.0);
    let start = random.within(0.0, 4.0);
    let width = random.within(0.05, 0.6);
    let arm = |k: usize, inner: f64| {
        let t = turns * k as f64 / (steps - 1) as f64;
        let pitch = 0.85 / turns.max(4.0);
        at_radius(start + t, 1.0 - pitch * t - inner * 4.0 * pitch * width)
    };
    let outer = (0..steps).map(|k| arm(k, 0.0));
    let inner = (0..steps).rev().map(|k| arm(k, 1.0));
    outer.chain(inner).collect()
}

/// A bar whose upper side is a saw.
pub fn saw(random: &mut Random, teeth: usize) -> Outline {
    let pitch = 2.0 / teeth as f64;
    let lean = random.pick(&[0.0, 0.0, 0.5, -0.5, 0.9]);
    let (low, high) = (random.within(-0.95, 0.0), random.within(0.05, 1.0));
    let mut outline = vec![[-1.0, -1.0], [1.0, -1.0]];
    for tooth in (0..teeth).rev() {
        let middle = -1.0 + pitch * (tooth as f64 + 0.5);
        outline.push([middle + 0.5 * pitch, low]);
        outline.push([middle + 0.5 * pitch * lean, high]);
    }
    outline.push([-1.0, low]);
    outline
}

/// A rectangle or a triangle with points along its sides.
pub fn runs(random: &mut Random, count: usize) -> Outline {
    let square = [[-1.0, -1.0], [1.0, -1.0], [1.0, 1.0], [-1.0, 1.0]];
    let sides = 3 + random.below(2);
    let mut outline = Vec::new();
    for side in 0..sides {
        let (a, b) = (square[side], square[(side + 1) % sides]);
        let points = count / sides;
        let steps = random.pick(&[points, 4, 8, 16]).max(points);
        for k in 0..points {
            let t = k as f64 / steps as f64;
            outline.push([a[0] + t * (b[0] - a[0]), a[1] + t * (b[1] - a[1])]);
        }
    }
    outline
}

/// A ring with a hole, joined by a slit walked both ways: it touches itself.
pub fn slit(random: &mut Random, outer: usize, inner: usize) -> Outline {
    let mut outline = star(random, outer, 0.8);
    let hole: Outline = star(random, inner, 0.5)
        .iter()
        .map(|p| p.map(|c| 0.5 * c))
        .collect();
    let from = outline[outer - 1];
    let start = random.below(inner);
    let walk = (0..=inner).rev().map(|k| hole[(start + k) % inner]);
    outline.extend(walk.collect::<Vec<_>>());
    outline.push(from);
    outline
}

/// Lobes that meet in one point, the ring going through it once a lobe.
pub fn lobes(random: &mut Random, count: usize, corners: usize) -> Outline {
    let mut outline = Vec::new();
    for lobe in 0..count {
        outline.push([0.0, 0.0]);
        let (from, span) = (4.0 * lobe as f64 / count as f64, 3.6 / count as f64);
        for k in 0..corners {
            let turn = from + span * (k as f64 + 0.2) / corners as f64;
            outline.push(at_radius(turn, random.within(0.5, 1.0)));
        }
    }
    outline
}

/// A ring that is the same after a quarter turn, so that corners tie.
pub fn four_fold(random: &mut Random, corners: usize) -> Outline {
    let mut turns: Vec<f64> = (0..corners).map(|_| random.share()).collect();
    turns.sort_by(f64::total_cmp);
    let inner = random.pick(&[0.3, 0.6, 0.9]);
    let quarter: Outline = turns
        .iter()
        .map(|&t| at_radius(t, random.within(inner, 1.0)))
        .collect();
    let mut outline = Vec::new();
    for turn in 0..4 {
        outline.extend(quarter.iter().map(|&[x, y]| match turn {
            0 => [x, y],
            1 => [-y, x],
            2 => [-x, -y],
            _ => [y, -x],
        }));
    }
    outline
}

/// Points anywhere: most such rings cross themselves.
pub fn scatter(random: &mut Random, count: usize) -> Outline {
    (0..count)
        .map(|_| [random.within(-1.0, 1.0), random.within(-1.0, 1.0)])
        .collect()
}
