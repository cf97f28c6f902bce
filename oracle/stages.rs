//! What each module gives for a ring and its chain, one item a line. Nothing
//! is tested but the blocks; rings out of limits are outside what is compared.

use crate::blocks::Jobs;
use crate::call::{doubled, in_mm, in_units};
use crate::forms::line;
use crate::job::Job;
use crate::notes;
use crate::stage::{self, Poly};
use crate::standin::limits;

pub fn all(bytes: &[u8]) -> String {
    let mut out = String::new();
    for (number, job) in Jobs::new(bytes).enumerate() {
        match job {
            Ok(job) => ring(&mut out, number, &job),
            Err(r) => line(
                &mut out,
                format_args!("block {} refused {}", r.block, r.code),
            ),
        }
    }
    out
}

fn ring(out: &mut String, number: usize, job: &Job) {
    line(out, format_args!("ring {number}"));
    let (simplified, run_mids) = stage::simplify_chain(&in_mm(&job.chain));
    units(out, "keep", &simplified);
    for &[x, y] in &run_mids {
        line(
            out,
            format_args!("snap {:016x} {:016x}", x.to_bits(), y.to_bits()),
        );
    }
    let points = stage::clean_polygon(&in_mm(&job.ring), 1.0e-7 * f64::from(job.size));
    units(out, "corner", &points);
    let simple = stage::polygon_simple(&points);
    line(out, format_args!("simple {}", u8::from(simple)));
    let area = doubled(stage::polygon_area(&points));
    let polygon = stage::marked(points, &simplified, &run_mids);
    let whole = polygon.points.len() >= 3;
    if whole {
        marks(out, &polygon);
    }
    line(out, format_args!("area {area}"));
    if whole {
        worst(out, &polygon.points);
    }
    if simple && area > 0 {
        split(out, &polygon);
    }
}

fn units(out: &mut String, name: &str, points: &[[f64; 2]]) {
    for &p in points {
        let [x, y] = in_units(p);
        line(out, format_args!("{name} {x} {y}"));
    }
}

fn marks(out: &mut String, polygon: &Poly) {
    for (k, snap) in polygon.snap.iter().enumerate() {
        if let Some([x, y]) = snap.map(|p| p.map(f64::to_bits)) {
            line(out, format_args!("mark {k} {x:016x} {y:016x}"));
        }
    }
}

/// The corner that no other exceeds, the last of equals.
fn worst(out: &mut String, points: &[[f64; 2]]) {
    let measures = stage::polygon_interior_angles(points);
    let mut at = 0;
    for (k, measure) in measures.iter().enumerate() {
        if *measure >= measures[at] {
            at = k;
        }
    }
    let bad = u8::from(measures[at] > limits().corner);
    line(
        out,
        format_args!("worst {at} {:016x} {bad}", measures[at].to_bits()),
    );
}

fn split(out: &mut String, polygon: &Poly) {
    notes::take();
    let pieces = stage::split_bad_vertices(polygon).expect("the split never fails");
    let notes = notes::take();
    let turned = -doubled(notes.turned_area);
    line(out, format_args!("cuts {} turned {turned}", notes.cuts));
    for piece in &pieces {
        line(out, format_args!("piece {}", piece.points.len()));
        for (&p, snap) in piece.points.iter().zip(&piece.snap) {
            let [x, y] = in_units(p);
            match snap.map(|s| s.map(f64::to_bits)) {
                Some([bx, by]) => line(out, format_args!("at {x} {y} {bx:016x} {by:016x}")),
                None => line(out, format_args!("at {x} {y}")),
            }
        }
    }
}
