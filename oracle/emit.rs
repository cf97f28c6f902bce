//! Writing job blocks and calls.

use crate::job::{check, Call, Entry, Given, Job, Marking, Set, BLOCK, CHECKED};

/// The two blocks of a job, the ring's number first.
pub fn blocks(job: &Job, number: usize) -> Vec<u8> {
    let mut bytes = one(1, &job.ring, number, job.size);
    bytes.extend(one(2, &job.chain, number + 1, 0));
    bytes
}

fn one(kind: u8, points: &[[i32; 2]], number: usize, size: u32) -> Vec<u8> {
    let mut block = vec![0; BLOCK];
    block[0] = kind;
    block[1] = points.len() as u8;
    block[2..4].copy_from_slice(&(number as u16).to_le_bytes());
    for (k, value) in points.iter().flatten().enumerate() {
        block[4 + 4 * k..8 + 4 * k].copy_from_slice(&value.to_le_bytes());
    }
    block[484..486].copy_from_slice(&(size as u16).to_le_bytes());
    seal(&mut block);
    block
}

/// Puts the check that the bytes now have.
pub fn seal(block: &mut [u8]) {
    let sum = check(block);
    block[CHECKED..].copy_from_slice(&sum.to_le_bytes());
}

/// A list and its calls as text. Marks are written where they are not the usual:
/// a place for each node, all 0.
pub fn calls(given: &Given) -> String {
    let usual = given.rims == given.places && given.marks.iter().all(|m| *m == 0);
    let mark = |text: String| {
        if usual {
            String::new()
        } else {
            format!(" {text}")
        }
    };
    let rims = mark(given.rims.to_string());
    let mut text = format!("list {} {}{rims}\n", given.places, given.used);
    for ([x, y], m) in given.nodes.iter().zip(&given.marks) {
        let (x, y, m) = (x.to_bits(), y.to_bits(), mark(m.to_string()));
        text += &format!("put {x:016x} {y:016x}{m}\n");
    }
    for call in &given.calls {
        text += &of_entry(&call.entry);
        text += &match &call.marking {
            Some(marking) => marked(call, marking),
            None => chained(call),
        };
        text.push('\n');
    }
    text
}

fn chained(call: &Call) -> String {
    let (job, places, count) = (&call.job, call.cell_places, call.cell_count);
    let (r, c) = (job.ring.len(), job.chain.len());
    let mut text = format!("call {} {places} {count} {r} {c}", job.size);
    for value in job.ring.iter().chain(&job.chain).flatten() {
        text += &format!(" {value}");
    }
    text
}

fn marked(call: &Call, m: &Marking) -> String {
    let (job, places, count) = (&call.job, call.cell_places, call.cell_count);
    let lengths = [
        job.ring.len(),
        m.kinds.len(),
        m.snaps.len(),
        m.outline.len(),
        m.loops.len(),
    ];
    let mut text = format!("marked {} {places} {count}", job.size);
    let mut put = |word: String| text += &format!(" {word}");
    lengths.iter().for_each(|n| put(n.to_string()));
    job.ring.iter().flatten().for_each(|c| put(c.to_string()));
    m.kinds.iter().for_each(|k| put(k.to_string()));
    m.snaps
        .iter()
        .for_each(|x| put(format!("{:016x}", x.to_bits())));
    m.outline.iter().for_each(|c| put(c.to_string()));
    m.loops.iter().for_each(|n| put(n.to_string()));
    text
}

/// The line before a call that says which entry it is of.
fn of_entry(entry: &Entry) -> String {
    match entry {
        Entry::Examination => String::new(),
        Entry::Practice => "practice\n".into(),
        Entry::Limited(Set {
            corner,
            least,
            greatest,
            cuts,
            share,
        }) => {
            let [corner, least, greatest, share] =
                [corner, least, greatest, share].map(|x| format!("{:016x}", x.to_bits()));
            format!("set {corner} {least} {greatest} {cuts} {share}\n")
        }
    }
}
