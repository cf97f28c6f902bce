//! Cuts the ring divider's stage out of the original Rust, by name, and puts
//! in the stand-ins that the scope lists under 'Where port and Rust part'.
//!
//! extract PATH_OF_alt_quadtree.rs OUTPUT [WRONG]
//!
//! Beside OUTPUT it writes outline.rs: the nearest point of an outline, from the
//! same file and from two_d.rs, which stands beside it.
//!
//! WRONG names one further edit, of wrong.rs, that spoils the stage: it shows
//! whether the generated rings tell a wrong divider from a right one.
//!
//! Nothing is taken by line number. A name that is missing or found twice, and
//! an edit whose text is not found exactly once, end the run with an error.

mod edits;
mod wrong;

use edits::{all_edits, Edit};
use std::path::Path;
use std::process::exit;

/// Constants of the original that the stage keeps.
const CONSTANTS: [&str; 1] = ["KEY_SCALE"];

/// Functions of the stage, in the order they are written out.
const FUNCTIONS: [&str; 20] = [
    "sub",
    "dot",
    "cross",
    "norm",
    "dist",
    "lerp",
    "pack",
    "point_segment_distance",
    "polygon_area",
    "point_in_polygon",
    "segments_cross",
    "polygon_simple",
    "polygon_interior_angles",
    "angle_between_deg",
    "simplify_chain",
    "point_at_arclength",
    "split_bad_vertices",
    "split_polygon_at",
    "make_sub_polygon",
    "clean_polygon",
];

/// Functions that read the node list.
const NODE_FUNCTIONS: [&str; 2] = ["quad_positive", "all_distinct"];

/// Methods of the original's `Builder`.
const METHODS: [&str; 3] = ["add_node", "subdivide", "subdivide_unsnapped"];

/// What stands around the cut text: the two fields of `Builder` that the
/// methods use, what they asked for as a rim node, and the node without the
/// third coordinate.
const HEAD: &str = "\
// Written by oracle/extract.rs. Not kept in the repository.
use crate::notes;
use crate::standin::{self, limits, SMOOTH_COSINE};
use std::collections::HashMap;

pub type Node = [f64; 2];

#[derive(Clone, Default)]
pub struct Builder {
    pub points: Vec<Node>,
    pub pool: HashMap<(i64, i64), usize>,
    pub asked: Vec<usize>,
}

impl Builder {
    /// What an attempt asked for as a corner or as the middle of a ring edge.
    fn ask(&mut self, corners: &[usize], middles: &[usize], ring_edge: &[bool]) {
        let edges = middles.iter().zip(ring_edge);
        let of_ring = edges.filter(|(_, own)| **own).map(|(m, _)| m);
        self.asked.extend(corners.iter().chain(of_ring));
    }
}

";

/// What stands around the outline's text: the two fields of `Domain` that its
/// methods use.
const OUTLINE_HEAD: &str = "\
// Written by oracle/extract.rs. Not kept in the repository.
use crate::stage::{dot, lerp, sub};

pub struct Domain {
    pub outer: Vec<[f64; 2]>,
    pub holes: Vec<Vec<[f64; 2]>>,
}

impl Domain {
";

/// Cleaning once more, over points that carry their place as a third number,
/// which none of its steps looks at.
const PLACED_HEAD: &str = "\
pub mod placed {
    use crate::stage::{self, dot};

    fn flat(p: [f64; 3]) -> [f64; 2] {
        [p[0], p[1]]
    }

    fn sub(a: [f64; 3], b: [f64; 3]) -> [f64; 2] {
        stage::sub(flat(a), flat(b))
    }

    fn dist(a: [f64; 3], b: [f64; 3]) -> f64 {
        stage::dist(flat(a), flat(b))
    }

    fn point_segment_distance(p: [f64; 3], a: [f64; 3], b: [f64; 3]) -> f64 {
        stage::point_segment_distance(flat(p), flat(a), flat(b))
    }

";

fn main() {
    let arguments: Vec<String> = std::env::args().skip(1).collect();
    let words: Vec<&str> = arguments.iter().map(String::as_str).collect();
    match words.as_slice() {
        ["wrong"] => wrong::NAMED.iter().for_each(|(name, _)| println!("{name}")),
        [source, output] => write(source, output, Vec::new()),
        [source, output, name] => write(source, output, vec![named(name)]),
        _ => fail("use: extract PATH_OF_alt_quadtree.rs OUTPUT [WRONG], or extract wrong"),
    }
}

fn named(name: &str) -> &'static Edit {
    let found = wrong::NAMED.iter().find(|(n, _)| *n == name);
    found.map_or_else(|| fail(&format!("no wrong edit '{name}'")), |(_, e)| e)
}

fn write(source: &str, output: &str, wrong: Vec<&'static Edit>) {
    let text = read(Path::new(source));
    let domain = read(&Path::new(source).with_file_name("two_d.rs"));
    let mut edits = Edits {
        all: all_edits().chain(wrong).collect(),
        made: 0,
    };
    let stage = extract(&text, &mut edits);
    if edits.made != edits.all.len() {
        fail("an edit names a place that is not cut");
    }
    save(Path::new(output), stage);
    save(
        &Path::new(output).with_file_name("outline.rs"),
        outline(&text, &domain),
    );
}

fn read(path: &Path) -> String {
    std::fs::read_to_string(path).unwrap_or_else(|e| fail(&format!("{}: {e}", path.display())))
}

fn save(path: &Path, text: String) {
    std::fs::write(path, text).unwrap_or_else(|e| fail(&format!("{}: {e}", path.display())));
}

/// The edits to make, and how many were made.
struct Edits {
    all: Vec<&'static Edit>,
    made: usize,
}

fn fail(message: &str) -> ! {
    eprintln!("extract: {message}");
    exit(1)
}

/// The whole output: constants, `Poly`, the functions, the two halves of
/// `build_polygon`'s end, and the methods.
fn extract(source: &str, edits: &mut Edits) -> String {
    let lines: Vec<&str> = source.lines().collect();
    let mut out = HEAD.to_string();
    for name in CONSTANTS {
        out.push_str(lines[only_line(&lines, &format!("const {name}: "))]);
        out.push('\n');
    }
    out.push_str("\n#[derive(Clone, Debug)]\n");
    out.push_str(&edits.changed("Poly", item(&lines, "struct Poly {")));
    for name in FUNCTIONS.iter().chain(&NODE_FUNCTIONS) {
        out.push_str(&edits.changed(name, item(&lines, &format!("fn {name}("))));
    }
    let tail = item(&lines, "    fn build_polygon(");
    out.push_str(&edits.changed("cleaned", cleaned(&tail)));
    out.push_str(&edits.changed("marked", marked(&tail)));
    out.push_str("impl Builder {\n");
    for name in METHODS {
        out.push_str(&edits.changed(name, item(&lines, &format!("    fn {name}("))));
    }
    out.push_str("}\n");
    out
}

/// The nearest point of an outline: what two_d.rs has of it, with that file's
/// own distance, and what the stage's file has; and cleaning by places.
fn outline(stage: &str, domain: &str) -> String {
    let (stage, domain): (Vec<&str>, Vec<&str>) =
        (stage.lines().collect(), domain.lines().collect());
    let mut out = OUTLINE_HEAD.to_string();
    for name in ["segments", "nearest_segment"] {
        out.push_str(&item(&domain, &format!("    pub fn {name}(")));
    }
    out.push_str("}\n\n");
    out.push_str(&item(&domain, "fn point_segment_distance("));
    out.push_str(&item(&stage, "fn nearest_boundary_point("));
    out.push_str(PLACED_HEAD);
    out.push_str(&item(&stage, "fn clean_polygon(").replace("[f64; 2]", "[f64; 3]"));
    out.push_str("}\n");
    out
}

/// The number of the only line that begins with `start`.
fn only_line(lines: &[&str], start: &str) -> usize {
    let found: Vec<usize> = (0..lines.len())
        .filter(|&i| lines[i].starts_with(start))
        .collect();
    if found.len() != 1 {
        fail(&format!("'{start}' begins {} lines, wanted 1", found.len()));
    }
    found[0]
}

/// A function or struct from its first line to the closing brace that stands
/// under it, made public.
fn item(lines: &[&str], start: &str) -> String {
    let first = only_line(lines, start);
    let indent = start.len() - start.trim_start().len();
    let closing = format!("{}}}", " ".repeat(indent));
    let length = lines[first..].iter().position(|l| *l == closing);
    let Some(length) = length else {
        fail(&format!("'{start}' is not closed"));
    };
    let own = lines[first].trim_start();
    let own = own.strip_prefix("pub ").unwrap_or(own);
    let head = format!("{}pub {own}", " ".repeat(indent));
    let mut text = vec![head.as_str()];
    text.extend(&lines[first + 1..=first + length]);
    text.join("\n") + "\n\n"
}

/// The text of `whole` from `from` up to `to`, each there exactly once.
fn between<'a>(whole: &'a str, from: &str, to: &str) -> &'a str {
    for mark in [from, to] {
        if whole.matches(mark).count() != 1 {
            fail(&format!("build_polygon: '{mark}' is not there once"));
        }
    }
    let (start, end) = (whole.find(from), whole.find(to));
    match (start, end) {
        (Some(s), Some(e)) if s < e => &whole[s..e],
        _ => fail(&format!(
            "build_polygon: '{from}' does not come before '{to}'"
        )),
    }
}

/// The end of `build_polygon`, first half: cleaning with its two refusals.
fn cleaned(build_polygon: &str) -> String {
    let body = between(
        build_polygon,
        "let points = clean_polygon(",
        "// Mark the polygon edges",
    );
    format!(
        "pub fn cleaned(chosen: &[[f64; 2]], scale: f64) -> Result<Vec<[f64; 2]>, String> {{\n        \
         {body}Ok(points)\n}}\n\n"
    )
}

/// The end of `build_polygon`, second half: the marking loop.
fn marked(build_polygon: &str) -> String {
    let body = between(build_polygon, "let mut chain_edge = ", "Ok(Poly {");
    format!(
        "pub fn marked(\n    points: Vec<[f64; 2]>,\n    simplified: &[[f64; 2]],\n    \
         run_mids: &[[f64; 2]],\n) -> Poly {{\n        {body}Poly {{\n            points,\n            \
         chain_edge,\n            snap,\n        }}\n}}\n\n"
    )
}

impl Edits {
    /// The text with every edit of its place made; each must match exactly once.
    fn changed(&mut self, place: &str, text: String) -> String {
        let mut text = text;
        for e in self.all.iter().filter(|e| e.place == place) {
            let found = text.matches(e.old).count();
            if found != 1 {
                fail(&format!(
                    "{place}: '{}' is there {found} times, wanted 1",
                    e.old
                ));
            }
            text = text.replacen(e.old, e.new, 1);
            self.made += 1;
        }
        text
    }
}
