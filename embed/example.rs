//! Divides the square of 1 mm, has the same square clockwise refused, and divides the square beside the first over the
//! same lists; then the square above the first with given marks, one edge snapped to a point and one to a lead line.
//! It prints the rim marks and the cell sheet of all nodes, divides an arrowhead, which takes a cut, and prints what the
//! record of wheel wear has of all these rings. At the end it finds the fault of a ring in which two points stand in the
//! wrong order.

mod ring_divide;

use ring_divide::{node_sheet, ring_divide, ring_divide_marked, smallest_refused, wear_add, Row, Wear};

/// The marks of a ring's edges: straight, snapped to the point beside it, or to the outline.
struct Marking<'a> {
    kinds: &'a [u8],
    snaps: &'a [f64],
    outline: &'a [i32],
    loops: &'a [u32],
}

/// The node list with its rim marks and the cell list, with how many places of each are used, and the record of wear.
struct Lists {
    nodes: Vec<f64>,
    node_count: usize,
    rims: Vec<u8>,
    cells: Vec<u32>,
    cell_count: usize,
    wear: [u8; 34],
}

impl Lists {
    /// Both counts go to the next call, and the answer into the record of wear.
    fn carry(&mut self, row: &Row) {
        self.node_count = row.nodes as usize;
        self.cell_count = row.cells as usize;
        self.add(row.code, row.cuts);
    }

    fn add(&mut self, code: u64, cuts: u64) -> Wear {
        wear_add(&mut self.wear, code, cuts)
    }
}

fn divide(ring: &[i32], chain: &[i32], size: u32, lists: &mut Lists) -> Row {
    let (nodes, rims, cells) = (&mut lists.nodes, &mut lists.rims, &mut lists.cells);
    let row = ring_divide(ring, chain, size, nodes, lists.node_count, rims, cells, lists.cell_count);
    lists.carry(&row);
    row
}

/// The same with given marks.
fn divide_marked(ring: &[i32], marks: &Marking, size: u32, lists: &mut Lists) -> Row {
    let (nodes, rims, cells) = (&mut lists.nodes, &mut lists.rims, &mut lists.cells);
    let (used, laid) = (lists.node_count, lists.cell_count);
    let Marking { kinds, snaps, outline, loops } = marks;
    let row = ring_divide_marked(ring, kinds, snaps, outline, loops, size, nodes, used, rims, cells, laid);
    lists.carry(&row);
    row
}

/// The row, and the cells from `first` on.
fn print(row: &Row, lists: &Lists, first: usize) {
    println!(
        "code {} corners {} cuts {} pieces {} nodes {} cells {}",
        row.code, row.corners, row.cuts, row.pieces, row.nodes, row.cells
    );
    for cell in lists.cells.chunks(4).take(lists.cell_count).skip(first) {
        println!("quad {} {} {} {}", cell[0], cell[1], cell[2], cell[3]);
    }
}

/// The cell sheet, 65 bytes a node; none where it is refused.
fn sheet(lists: &Lists) -> String {
    let mut out = vec![0; 65 * lists.node_count];
    if node_sheet(&lists.nodes, lists.node_count, &mut out) == 0 {
        String::from_utf8(out).expect("a sheet is text")
    } else {
        String::new()
    }
}

fn main() {
    const MM: i32 = 8192;
    let mut lists = Lists {
        nodes: vec![0.0; 2 * 1536],
        node_count: 0,
        rims: vec![0; 1536],
        cells: vec![0; 4 * 124],
        cell_count: 0,
        wear: [0; 34],
    };
    let row = divide(&[0, 0, MM, 0, MM, MM, 0, MM], &[], 1, &mut lists);
    print(&row, &lists, 0);
    println!("node 8 at {} {}", lists.nodes[16], lists.nodes[17]);

    let row = divide(&[0, 0, 0, MM, MM, MM, MM, 0], &[], 1, &mut lists);
    print(&row, &lists, 4);

    let row = divide(&[MM, 0, 2 * MM, 0, 2 * MM, MM, MM, MM], &[], 1, &mut lists);
    print(&row, &lists, 4);

    let marks = Marking {
        kinds: &[0, 1, 2, 0],
        snaps: &[0.0, 0.0, 1.125, 1.5, 0.0, 0.0, 0.0, 0.0],
        outline: &[-MM, 2 * MM + MM / 8, 2 * MM, 2 * MM + MM / 8, 0, 8 * MM],
        loops: &[3],
    };
    let row = divide_marked(&[0, MM, MM, MM, MM, 2 * MM, 0, 2 * MM], &marks, 1, &mut lists);
    print(&row, &lists, 8);
    let n = &lists.nodes;
    println!("node 17 at {} {}, node 18 at {} {}", n[34], n[35], n[36], n[37]);
    let marks = lists.rims[..lists.node_count].iter().map(u8::to_string);
    println!("rims {}", marks.collect::<String>());
    print!("{}", sheet(&lists));

    let row = divide(&[-10 * MM, 0, 0, 9 * MM, 10 * MM, 0, 0, 10 * MM], &[], 1, &mut lists);
    print(&row, &lists, lists.cell_count);
    let w = lists.add(7, 0); // a refused ring: the record as it is
    println!("wear total {} highest {} rings {}", w.total, w.highest, w.rings);

    let rosette = [4, 0, 8, 0, 11, 2, 12, 5, 8, 12, 11, 9, 4, 12, 1, 9, 0, 5, 1, 2].map(|x| x * MM);
    let s = smallest_refused(&rosette, &[], 1);
    println!(
        "smallest code {} refusal {} choice {} points {}",
        s.code, s.refusal, s.choice, s.points
    );
}
