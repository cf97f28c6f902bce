//! Makes job blocks, damaged block files and calls, the same for a seed
//! everywhere.
//!
//! generate list                       the kinds
//! generate KIND SEED COUNT            COUNT jobs of a kind, as blocks
//! generate grid SET COUNT             the first COUNT jobs of a complete grid
//! generate calls SEED COUNT           COUNT lists with their calls, as text
//! generate leads SEED COUNT           the same, most calls with given marks
//! generate sets SEED COUNT            the same, each call with a set of limits
//! generate practice SEED COUNT        the same, each call of the practice entry
//! generate rims SEED COUNT            the same, calls of every entry in turn on lists with marks
//! generate ends SEED COUNT            COUNT rings, each with every set at an end
//! generate damaged SEED COUNT FOLDER  COUNT damaged files

mod damage;
mod drawn;
mod emit;
mod exact;
mod grid;
mod job;
mod kinds;
mod known;
mod lattice;
mod leads;
mod lists;
mod marked;
mod place;
mod random;
mod sets;
mod shapes;

use job::{Entry, Given, Job};
use kinds::KINDS;
use random::Random;
use std::io::Write;

fn main() {
    let arguments: Vec<String> = std::env::args().skip(1).collect();
    let words: Vec<&str> = arguments.iter().map(String::as_str).collect();
    let out = match words.as_slice() {
        ["list"] => list().into_bytes(),
        ["calls", seed, count] => calls(number(seed), number(count), lists::given).into_bytes(),
        ["leads", seed, count] => {
            calls(number(seed), number(count), lists::with_marks).into_bytes()
        }
        ["sets", seed, count] => calls(number(seed), number(count), lists::with_sets).into_bytes(),
        ["practice", seed, count] => {
            calls(number(seed), number(count), lists::for_practice).into_bytes()
        }
        ["rims", seed, count] => calls(number(seed), number(count), lists::with_rims).into_bytes(),
        ["ends", seed, count] => ends(number(seed), number(count)).into_bytes(),
        ["grid", set, count] => file(grid::jobs(number(set)), number(count)),
        ["damaged", seed, count, folder] => damaged(number(seed), number(count), folder),
        [kind, seed, count] => blocks(kind, number(seed), number(count)),
        _ => fail("use: generate list | KIND SEED COUNT | damaged SEED COUNT FOLDER"),
    };
    if std::io::stdout().write_all(&out).is_err() {
        std::process::exit(1)
    }
}

fn fail(message: &str) -> ! {
    eprintln!("generate: {message}");
    std::process::exit(2)
}

fn number(word: &str) -> usize {
    word.parse()
        .unwrap_or_else(|_| fail(&format!("'{word}' is no number")))
}

fn list() -> String {
    let mut text = format!(
        "grid      tiny grids complete, sets 0 to {}\n",
        grid::COUNT - 1
    );
    for (name, _, what) in &KINDS {
        text += &format!("{name:9} {what}\n");
    }
    text += "calls     lists with nodes in them and calls over each\n";
    text += "leads     the same, most calls with given marks\n";
    text += "sets      the same, each call with a set of limits\n";
    text += "practice  the same, each call of the practice entry\n";
    text += "rims      the same, calls of every entry in turn on lists with marks\n";
    text += "ends      rings, each with every set at an end of what is taken\n";
    text + "damaged   damaged block files, into a folder\n"
}

fn blocks(name: &str, seed: usize, count: usize) -> Vec<u8> {
    let Some((_, kind, _)) = KINDS.iter().find(|k| k.0 == name) else {
        fail(&format!("no kind '{name}'"));
    };
    let mut random = Random::new(seed as u64);
    file(
        (0..count.min(grid::MOST))
            .map(|k| kind(&mut random, k))
            .collect(),
        count,
    )
}

fn file(jobs: Vec<Job>, count: usize) -> Vec<u8> {
    let numbered = jobs.iter().take(count.min(grid::MOST)).enumerate();
    numbered
        .flat_map(|(k, job)| emit::blocks(job, 2 * k))
        .collect()
}

fn any_job(random: &mut Random, place: usize) -> Job {
    let (_, kind, _) = KINDS[KINDS.len() - 1];
    kind(random, place)
}

type Jobs = fn(&mut Random, usize) -> Job;

fn calls(seed: usize, count: usize, given: fn(&mut Random, Jobs) -> Given) -> String {
    let mut random = Random::new(seed as u64);
    (0..count)
        .map(|_| emit::calls(&given(&mut random, any_job)))
        .collect()
}

/// COUNT rings of the kinds that a set bears on, each with every set at an end,
/// on a list of its own.
fn ends(seed: usize, count: usize) -> String {
    let named = |name: &&str| KINDS.iter().find(|kind| kind.0 == *name);
    let kinds: Vec<_> = ["angles", "cuts", "chains", "far", "saws"]
        .iter()
        .filter_map(named)
        .collect();
    let mut random = Random::new(seed as u64);
    let jobs: Vec<Job> = (0..count)
        .map(|k| (kinds[k % kinds.len()].1)(&mut random, k))
        .collect();
    let pairs = sets::ends()
        .into_iter()
        .flat_map(|set| jobs.iter().map(move |job| (set, job)));
    pairs
        .map(|(set, job)| emit::calls(&lists::alone(Entry::Limited(set), job)))
        .collect()
}

/// The files 00000.bin and so on; the first two lie at the last block number.
fn damaged(seed: usize, count: usize, folder: &str) -> Vec<u8> {
    std::fs::create_dir_all(folder).expect("the folder can be made");
    let mut random = Random::new(seed as u64);
    for k in 0..count {
        let bytes = match k {
            0 => damage::past_the_last_number(512),
            1 => damage::past_the_last_number(1_024),
            _ => damage::file(&mut random, any_job),
        };
        std::fs::write(format!("{folder}/{k:05}.bin"), bytes).expect("the file can be written");
    }
    Vec::new()
}
