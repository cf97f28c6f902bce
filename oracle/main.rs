//! The original Rust of the stage beside the ring divider.
//!
//! oracle divide < BLOCKS   what the program `divide` prints
//! oracle sheet < BLOCKS    what the program `sheet` prints
//! oracle detail < BLOCKS   every value, node bits and cells
//! oracle each < BLOCKS     the same, each ring on an empty list
//! oracle stages < BLOCKS   what each module gives
//! oracle census < BLOCKS   how often what matters happened
//! oracle calls < CALLS     the detailed form of calls over prefilled lists
//! oracle rims < BLOCKS     the detailed form of blocks, with rim marks
//! oracle supplied < CALLS  the same of the supplied calls of the cards
//! oracle crossings < ENDS  two segments a line: apart, touching or crossing
//!
//! oracle before COMMAND    the same before Card 11, whose test is left out

mod blocks;
#[allow(dead_code)]
mod call;
mod calls;
mod census;
mod forms;
mod job;
#[allow(dead_code)]
mod meeting;
mod notes;
#[path = "../target/oracle/outline.rs"]
#[allow(dead_code)]
mod outline;
#[allow(dead_code)]
mod paper;
#[allow(dead_code)]
mod random;
#[allow(dead_code)]
mod smallest;
#[path = "../target/oracle/stage.rs"]
mod stage;
mod stages;
mod standin;
mod supplied;
#[allow(dead_code)]
mod traced;

use std::io::{Read, Write};
use supplied::Lent;

fn main() {
    let mut words = std::env::args().skip(1).peekable();
    if words.next_if_eq("before").is_some() {
        standin::before_card_11();
    }
    let command = words.next().unwrap_or_default();
    let mut input = Vec::new();
    std::io::stdin()
        .read_to_end(&mut input)
        .expect("standard input can be read");
    let lines = || std::str::from_utf8(&input).expect("calls are text");
    let text = match command.as_str() {
        "divide" => forms::printed(&input),
        "sheet" => forms::listed(&input),
        "detail" => forms::detailed(&input),
        "each" => forms::detailed_each(&input),
        "census" => census::all(&input),
        "stages" => stages::all(&input),
        "calls" => forms::called(lines()),
        "rims" => supplied::of_blocks(&input, Lent::run),
        "supplied" => supplied::all(lines(), Lent::run, smallest::answer),
        "crossings" => supplied::crossings(lines()),
        _ => {
            eprintln!("use: oracle [before] divide|sheet|detail|each|stages|census|calls|rims|supplied|crossings < INPUT");
            std::process::exit(2)
        }
    };
    if std::io::stdout().write_all(text.as_bytes()).is_err() {
        std::process::exit(1)
    }
}
