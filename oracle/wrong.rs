//! Edits that spoil the stage, each one way to be wrong. They are made after
//! the stand-ins. A set of rings that cannot tell them is a poor set.

use crate::edits::{edit, Edit};

pub const NAMED: [(&str, Edit); 49] = [
    (
        "never_cuts",
        edit("split_bad_vertices", "a > limits().corner", "a > 9.0"),
    ),
    (
        "bad_or_equal",
        edit(
            "split_bad_vertices",
            "a > limits().corner",
            "a >= limits().corner",
        ),
    ),
    (
        "first_of_equals",
        edit("split_bad_vertices", ".max_by(", ".rev().max_by("),
    ),
    (
        "one_cut_less",
        edit(
            "split_bad_vertices",
            "splits >= limits().cuts as usize",
            "splits + 1 >= limits().cuts as usize",
        ),
    ),
    (
        "first_part_first",
        edit(
            "split_bad_vertices",
            "queue.push(a);",
            "let (a, b) = (b, a);\nqueue.push(a);",
        ),
    ),
    (
        "last_of_diagonals",
        edit("split_polygon_at", "score < s", "score <= s"),
    ),
    (
        "smaller_cosine",
        edit(
            "split_polygon_at",
            "angle1.max(angle2)",
            "angle1.min(angle2)",
        ),
    ),
    (
        "outside_too",
        edit(
            "split_polygon_at",
            "!point_in_polygon(mid, points)",
            "false",
        ),
    ),
    (
        "crossing_too",
        edit("split_polygon_at", "segments_cross(v, q, a, b)", "false"),
    ),
    (
        "over_a_corner",
        edit(
            "split_polygon_at",
            "standin::runs_over(v, q, points)",
            "false",
        ),
    ),
    (
        "corner_at_an_end",
        edit(
            "split_polygon_at",
            "standin::runs_over(v, q, points)",
            "standin::runs_over(v, q, points)\n|| (0..n).any(|i| i != index && i != j && (points[i] == v || points[i] == q))",
        ),
    ),
    (
        "corner_in_doubles",
        edit(
            "split_polygon_at",
            "standin::runs_over(v, q, points)",
            "points.iter().any(|&p| p != v && p != q && dist(v, p) + dist(p, q) == dist(v, q))",
        ),
    ),
    (
        "no_least_angle",
        edit("split_polygon_at", "angle1 > limits().greatest", "false"),
    ),
    (
        "above_least_angle",
        edit(
            "split_polygon_at",
            "angle1 > limits().greatest",
            "angle1 >= limits().greatest",
        ),
    ),
    (
        "no_most_angle",
        edit("split_polygon_at", "angle2 < limits().least", "false"),
    ),
    (
        "below_most_angle",
        edit(
            "split_polygon_at",
            "angle2 < limits().least",
            "angle2 <= limits().least",
        ),
    ),
    (
        "not_turned",
        edit(
            "make_sub_polygon",
            "if polygon_area(&points) < 0.0 {",
            "if false {",
        ),
    ),
    (
        "marks_not_moved",
        edit("make_sub_polygon", "(m + m - 2 - k) % m", "k"),
    ),
    (
        "diagonal_marked",
        edit(
            "make_sub_polygon",
            "chain_edge.push(false);",
            "chain_edge.push(poly.chain_edge[i]);\nsnap.push(poly.snap[i]);\n#[cfg(any())]",
        ),
    ),
    (
        "one_by_one",
        edit(
            "clean_polygon",
            "keep[i] = false;",
            "keep[i] = false;\nbreak;",
        ),
    ),
    (
        "back_spikes_too",
        edit(
            "clean_polygon",
            "sub(next, here)) > 0.0",
            "sub(next, here)) > -1.0e300",
        ),
    ),
    (
        "three_points_too",
        edit("clean_polygon", "if n > 3 {", "if n > 4 {"),
    ),
    (
        "end_not_cleaned",
        edit(
            "clean_polygon",
            "while unique.len() > 1 &&",
            "while false &&",
        ),
    ),
    (
        "wide_crossing",
        edit("segments_cross", "t > 1.0e-9", "t > 0.0"),
    ),
    (
        "wide_crossing_end",
        edit("segments_cross", "u < 1.0 - 1.0e-9", "u < 1.0"),
    ),
    (
        "inside_or_level",
        edit(
            "point_in_polygon",
            "(a[1] > p[1]) != (b[1] > p[1])",
            "(a[1] >= p[1]) != (b[1] >= p[1])",
        ),
    ),
    (
        "inside_exactly",
        edit(
            "point_in_polygon",
            "p[0] < a[0] + t * (b[0] - a[0])",
            "((p[0] - a[0]) * (b[1] - a[1]) < (p[1] - a[1]) * (b[0] - a[0])) == (b[1] > a[1])",
        ),
    ),
    ("last_mark", edit("marked", "break;", "")),
    (
        "forward_marks",
        edit(
            "marked",
            "(dist(a, q) <= tol && dist(b, p) <= tol)",
            "false",
        ),
    ),
    (
        "keeps_smooth",
        edit("simplify_chain", "angle < SMOOTH_COSINE", "angle <= 1.0"),
    ),
    (
        "keeps_at_limit",
        edit(
            "simplify_chain",
            "angle < SMOOTH_COSINE",
            "angle <= SMOOTH_COSINE",
        ),
    ),
    (
        "drops_zero_steps",
        edit(
            "simplify_chain",
            "norm(d1) <= 0.0 || norm(d2) <= 0.0",
            "false",
        ),
    ),
    (
        "half_of_stretch",
        edit(
            "simplify_chain",
            "0.5 * (arc[previous] + arc[i])",
            "arc[previous] + 0.5 * (arc[i] - arc[previous])",
        ),
    ),
    (
        "key_toward_zero",
        edit(
            "pack",
            "(p[0] * KEY_SCALE).round()",
            "(p[0] * KEY_SCALE).trunc()",
        ),
    ),
    (
        "key_half_up",
        edit(
            "pack",
            "(p[0] * KEY_SCALE).round()",
            "(p[0] * KEY_SCALE + 0.5).floor()",
        ),
    ),
    (
        "snaps_all",
        edit(
            "subdivide",
            "dist(q, m) <= limits().share",
            "dist(q, m) <= 1.0e9",
        ),
    ),
    (
        "snaps_below_share",
        edit(
            "subdivide",
            "dist(q, m) <= limits().share",
            "dist(q, m) < limits().share",
        ),
    ),
    (
        "far_straightens",
        edit(
            "subdivide",
            "snapped = false;",
            "return self.subdivide_unsnapped(polygon, quads);\n#[cfg(any())]",
        ),
    ),
    ("far_retries", edit("subdivide", "snapped = false;", "")),
    (
        "no_retry",
        edit("subdivide", "if snapped {", "if snapped && false {"),
    ),
    (
        "not_taken_back",
        edit("subdivide", "quads.truncate(quads.len() - k);", ""),
    ),
    (
        "retry_repeats",
        edit(
            "subdivide_unsnapped",
            "standin::middle(a, b)",
            "polygon.snap[k].unwrap_or(standin::middle(a, b))",
        ),
    ),
    (
        "area_centroid",
        edit(
            "subdivide",
            "let centre =",
            "let [cx, cy] = crate::census::centroid(&polygon.points);\nlet centre =",
        ),
    ),
    (
        "positive_only",
        edit("quad_positive", "<= 1.0e-15", "<= 0.0"),
    ),
    (
        "cut_middle_rim",
        edit(
            "make_sub_polygon",
            "ring_edge.push(false);",
            "ring_edge.push(true);",
        ),
    ),
    (
        "rim_not_moved",
        edit("make_sub_polygon", "ring_edge[..m - 1].reverse();", ""),
    ),
    (
        "marked_rim_alone",
        edit(
            "subdivide",
            "&mids, &polygon.ring_edge",
            "&mids, &polygon.chain_edge",
        ),
    ),
    (
        "centre_rim",
        edit(
            "subdivide",
            "self.ask(",
            "self.asked.push(centre);\n        self.ask(",
        ),
    ),
    (
        "abandoned_unasked",
        edit(
            "subdivide",
            "notes::retried(k);",
            "notes::retried(k);\n                    \
             let own = polygon.ring_edge.iter().filter(|e| **e).count();\n                    \
             self.asked.truncate(self.asked.len() - n - own);",
        ),
    ),
];
