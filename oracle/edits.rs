//! The stand-ins, as edits of the cut text. Each group quotes its sentence of
//! the scope's list 'Where port and Rust part'; the last three groups join the
//! cut text to the rest and tell what it does. What the scope adds around the
//! stage (whole numbers, refusals 1 to 4 and 7, job blocks) is in call.rs and
//! blocks.rs.

/// One change of the cut text `place`: `old` must be there exactly once.
pub struct Edit {
    pub place: &'static str,
    pub old: &'static str,
    pub new: &'static str,
}

pub const fn edit(place: &'static str, old: &'static str, new: &'static str) -> Edit {
    Edit { place, old, new }
}

/// "The corner measure and the cosine below replace them, with their limits."
const ANGLES: [Edit; 14] = [
    edit(
        "polygon_interior_angles",
        "out.push(180.0);",
        "out.push(2.0);",
    ),
    edit(
        "polygon_interior_angles",
        "let turn = cross(d1, d2).atan2(dot(d1, d2));",
        "let measure = standin::corner_measure(cross(d1, d2), dot(d1, d2));",
    ),
    edit(
        "polygon_interior_angles",
        "out.push((180.0 - turn.to_degrees()).rem_euclid(360.0));",
        "out.push(measure);",
    ),
    edit("angle_between_deg", "return 0.0;", "return 1.0;"),
    edit("angle_between_deg", ".acos()", ""),
    edit("angle_between_deg", ".to_degrees()", ""),
    edit(
        "simplify_chain",
        "angle > SMOOTH_TURN_DEG",
        "angle < SMOOTH_COSINE",
    ),
    edit(
        "split_bad_vertices",
        "a > BAD_ANGLE_DEG",
        "a > limits().corner",
    ),
    edit(
        "split_polygon_at",
        "angle1 < MIN_SPLIT_ANGLE_DEG",
        "angle1 > limits().greatest",
    ),
    edit(
        "split_polygon_at",
        "angle2 < MIN_SPLIT_ANGLE_DEG",
        "angle2 > limits().greatest",
    ),
    edit(
        "split_polygon_at",
        "angle1 > BAD_ANGLE_DEG",
        "angle1 < limits().least",
    ),
    edit(
        "split_polygon_at",
        "angle2 > BAD_ANGLE_DEG",
        "angle2 < limits().least",
    ),
    // A smaller angle is a larger cosine: the best diagonal turns round.
    edit(
        "split_polygon_at",
        "angle1.min(angle2)",
        "angle1.max(angle2)",
    ),
    edit("split_polygon_at", "score > s", "score < s"),
];

/// "Cells of an abandoned snapped attempt are taken back." At the failing cell
/// k, this attempt has listed k cells.
const TAKEN_BACK: [Edit; 1] = [edit(
    "subdivide",
    "return self.subdivide_unsnapped(polygon, quads);",
    "quads.truncate(quads.len() - k);\n                    notes::retried(k);\n                    \
     return self.subdivide_unsnapped(polygon, quads);",
)];

/// "Nodes drop the Rust's third coordinate, always zero."
const FLAT_NODES: [Edit; 1] = [edit("add_node", "[p[0], p[1], 0.0]", "[p[0], p[1]]")];

/// "A straight middle in `subdivide` is half the sum of its edge's two listed
/// ends, whatever form the Rust has."
const MIDDLES: [Edit; 2] = [
    edit(
        "subdivide",
        "[0.5 * (a[0] + b[0]), 0.5 * (a[1] + b[1])]",
        "standin::middle(a, b)",
    ),
    edit(
        "subdivide_unsnapped",
        "[0.5 * (a[0] + b[0]), 0.5 * (a[1] + b[1])]",
        "standin::middle(a, b)",
    ),
];

/// What is out of the stage: the scale becomes the sheet size, the ring comes
/// from the caller, and every marked edge has its snap point.
const OUT_OF_STAGE: [Edit; 3] = [
    edit("cleaned", "self.scale()", "scale"),
    edit("cleaned", "&chosen", "chosen"),
    edit(
        "subdivide",
        "nearest_boundary_point(self.domain, m)",
        "unreachable!(\"a marked edge has its snap point\")",
    ),
];

/// "The bad-corner limit, the least and greatest diagonal cosine, the number of
/// cuts and the snap share become one set of values": the last two; the others
/// are among the angles.
const LIMITS: [Edit; 2] = [
    edit(
        "split_bad_vertices",
        "splits >= MAX_SPLITS",
        "splits >= limits().cuts as usize",
    ),
    edit(
        "subdivide",
        "dist(q, m) <= 0.4",
        "dist(q, m) <= limits().share",
    ),
];

/// "A diagonal is refused also when a third corner of the part is strictly
/// between its ends on the same line. The Rust run alongside gets this one test."
const THIRD_CORNER: [Edit; 1] = [edit(
    "split_polygon_at",
    "if crosses {",
    "if crosses || standin::runs_over(v, q, points) {",
)];

/// "It is set exactly if the node was ever a corner or the middle of a ring
/// edge": each part knows which of its edges are the ring's own, and each
/// attempt notes what it asks for. Neither decides anything.
const RIM: [Edit; 9] = [
    edit(
        "Poly",
        "    pub points: ",
        "    pub ring_edge: Vec<bool>,\n    pub points: ",
    ),
    edit(
        "marked",
        "Poly {\n            points,",
        "Poly {\n            ring_edge: vec![true; points.len()],\n            points,",
    ),
    edit(
        "make_sub_polygon",
        "let mut points = Vec::with_capacity(m);",
        "let mut points = Vec::with_capacity(m);\n    let mut ring_edge = Vec::with_capacity(m);",
    ),
    edit(
        "make_sub_polygon",
        "chain_edge.push(*poly",
        "ring_edge.push(poly.ring_edge[i]);\n            chain_edge.push(*poly",
    ),
    edit(
        "make_sub_polygon",
        "chain_edge.push(false);",
        "ring_edge.push(false);\n            chain_edge.push(false);",
    ),
    // Turned round, edge k is the one that ended where it starts.
    edit(
        "make_sub_polygon",
        "chain_edge = reversed_edge;",
        "ring_edge[..m - 1].reverse();\n        chain_edge = reversed_edge;",
    ),
    edit(
        "make_sub_polygon",
        "Poly {\n        points,",
        "Poly {\n        ring_edge,\n        points,",
    ),
    edit(
        "subdivide",
        "let centre = self.add_node([cx, cy]);",
        "let centre = self.add_node([cx, cy]);\n        \
         self.ask(&vertices, &mids, &polygon.ring_edge);",
    ),
    edit(
        "subdivide_unsnapped",
        "let centre = self.add_node([cx, cy]);",
        "let centre = self.add_node([cx, cy]);\n        \
         self.ask(&vertices, &mids, &polygon.ring_edge);",
    ),
];

/// Values that the caller is told and the Rust does not return (cuts, turned
/// area), and what the census counts.
const NOTED: [Edit; 6] = [
    edit("split_bad_vertices", "splits += 1;", "splits += 1;\n                notes::cut();"),
    edit(
        "split_bad_vertices",
        "if splits >= limits().cuts as usize {",
        "notes::worst(&angles, index);\n        if splits >= limits().cuts as usize {\n            notes::spent();",
    ),
    edit(
        "make_sub_polygon",
        "points.reverse();",
        "notes::turned(polygon_area(&points), &chain_edge);\n        points.reverse();",
    ),
    edit("subdivide", "snapped = false;", "snapped = false;\n                    notes::far();"),
    edit("add_node", "return id;", "notes::met(self.points[id], p);\n            return id;"),
    edit("subdivide", "m = q;", "notes::near(q, m);\n                    m = q;"),
];

/// The cut text is called from other files.
const PUBLIC: [Edit; 3] = [
    edit("Poly", "    points: ", "    pub points: "),
    edit("Poly", "    chain_edge: ", "    pub chain_edge: "),
    edit("Poly", "    snap: ", "    pub snap: "),
];

/// Every edit, in the order they are made.
pub fn all_edits() -> impl Iterator<Item = &'static Edit> {
    ANGLES
        .iter()
        .chain(&TAKEN_BACK)
        .chain(&FLAT_NODES)
        .chain(&MIDDLES)
        .chain(&OUT_OF_STAGE)
        .chain(&LIMITS)
        .chain(&THIRD_CORNER)
        .chain(&NOTED)
        .chain(&PUBLIC)
        .chain(&RIM)
}
