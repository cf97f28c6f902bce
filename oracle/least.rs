//! Calls of the exported `smallest_refused`, compared with what trying every
//! choice through the Rust says.

use crate::ring_divide::smallest_refused;
use crate::smallest::{answer, Answer, Case};

pub fn called(case: &Case) -> Answer {
    let s = smallest_refused(&case.ring, &case.chain, case.size);
    [s.code, s.refusal, s.choice, s.points]
}

/// One call beside the Rust; answers what both say.
pub fn compared(case: &Case) -> Result<Answer, String> {
    let (ours, rust) = (called(case), answer(case));
    if ours == rust {
        return Ok(ours);
    }
    Err(format!("{case:?}\n  gave {ours:?}, the Rust {rust:?}"))
}
