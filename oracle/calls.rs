//! The `.calls` form: node lists with what they hold, and calls over each.
//!
//! list PLACES USED [RIMS]     then a line for each used node, PLACES at most; RIMS
//!                             places of the list of marks, or as many as PLACES
//! put BX BY [MARK]            its two doubles as bits, and its mark, or 0
//! set CORNER LEAST GREATEST CUTS SHARE   the next call brings this set, doubles as bits
//! practice                    the next call is one of the practice entry
//! call SIZE CELL_PLACES CELL_COUNT R C x y ..   R ring points, C chain points
//! marked SIZE CELL_PLACES CELL_COUNT R K S O L ..   R ring points, then K kinds,
//!                             S numbers of snaps as bits, O of the outline, L loops

use crate::job::{Call, Entry, Given, Job, Marking, Set};

pub fn read(text: &str) -> Vec<Given> {
    let mut lists: Vec<Given> = Vec::new();
    let mut entry = Entry::Examination;
    for line in text.lines() {
        let mut words = line.split_whitespace();
        let kind = words.next().unwrap_or_default();
        let words: Vec<&str> = words.collect();
        if kind == "list" {
            lists.push(Given::default());
        }
        let list = lists.last_mut().expect("a list comes first");
        match kind {
            "list" => {
                (list.places, list.used) = (number(words[0]), number(words[1]));
                list.rims = words.get(2).map_or(list.places, |w| number(w));
            }
            "put" => {
                list.nodes.push([double(words[0]), double(words[1])]);
                list.marks.push(words.get(2).map_or(0, |w| number(w) as u8));
            }
            "set" => entry = Entry::Limited(set(&words)),
            "practice" => entry = Entry::Practice,
            "call" => list.calls.push(call(std::mem::take(&mut entry), &words)),
            "marked" => list.calls.push(marked(std::mem::take(&mut entry), &words)),
            _ => panic!("no such line: {line}"),
        }
    }
    lists
}

pub(crate) fn set(words: &[&str]) -> Set {
    Set {
        corner: double(words[0]),
        least: double(words[1]),
        greatest: double(words[2]),
        cuts: number(words[3]) as u32,
        share: double(words[4]),
    }
}

fn call(entry: Entry, words: &[&str]) -> Call {
    let head: Vec<usize> = words[..5].iter().map(|w| number(w)).collect();
    let numbers: Vec<i32> = words[5..]
        .iter()
        .map(|w| w.parse().expect("a coordinate"))
        .collect();
    let points: Vec<[i32; 2]> = numbers.chunks(2).map(|p| [p[0], p[1]]).collect();
    assert_eq!(points.len(), head[3] + head[4], "the points of a call");
    let (ring, chain) = points.split_at(head[3]);
    let job = Job {
        ring: ring.to_vec(),
        chain: chain.to_vec(),
        size: head[0] as u32,
    };
    Call {
        entry,
        job,
        marking: None,
        cell_places: head[1],
        cell_count: head[2],
    }
}

fn marked(entry: Entry, words: &[&str]) -> Call {
    let head: Vec<usize> = words[..8].iter().map(|w| number(w)).collect();
    let mut rest = words[8..].iter();
    let mut part = |n: usize| rest.by_ref().take(n).copied().collect::<Vec<&str>>();
    let whole = |words: Vec<&str>| -> Vec<i32> {
        let parsed = words.iter().map(|w| w.parse().expect("a coordinate"));
        parsed.collect()
    };
    let ring = whole(part(2 * head[3]));
    let kinds = part(head[4]).iter().map(|w| number(w) as u8).collect();
    let snaps = part(head[5]).iter().map(|w| double(w)).collect();
    let outline = whole(part(head[6]));
    let loops = part(head[7]).iter().map(|w| number(w) as u32).collect();
    Call {
        entry,
        job: Job {
            ring: ring.chunks(2).map(|p| [p[0], p[1]]).collect(),
            chain: Vec::new(),
            size: head[0] as u32,
        },
        marking: Some(Marking {
            kinds,
            snaps,
            outline,
            loops,
        }),
        cell_places: head[1],
        cell_count: head[2],
    }
}

pub(crate) fn number(word: &str) -> usize {
    word.parse().expect("a whole number")
}

pub(crate) fn double(word: &str) -> f64 {
    f64::from_bits(u64::from_str_radix(word, 16).expect("the bits of a double"))
}
