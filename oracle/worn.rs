//! Calls of the exported record of wear, compared with our own: the four values,
//! each byte, and the bytes around the record; and lists of answers from the
//! empty record, compared with the last 32 of a plain list.

use crate::random::Random;
use crate::ring_divide::wear_add;
use crate::wear;

const GUARD: usize = 64;

/// The answer and the record afterwards; an error where a byte around it changed.
fn added(record: &[u8], code: u64, cuts: u64) -> Result<([u64; 4], Vec<u8>), String> {
    let guard: Vec<u8> = (0..GUARD).map(|k| k as u8 ^ 165).collect();
    let mut bytes = [guard.as_slice(), record, guard.as_slice()].concat();
    let end = GUARD + record.len();
    let w = wear_add(&mut bytes[GUARD..end], code, cuts);
    if bytes[..GUARD] != guard || bytes[end..] != guard {
        return Err("a byte beside the record changed".into());
    }
    Ok(([w.code, w.total, w.highest, w.rings], bytes[GUARD..end].to_vec()))
}

/// One call beside our own; answers the record afterwards.
pub fn compared(record: &[u8], code: u64, cuts: u64) -> Result<Vec<u8>, String> {
    let (ours, own) = (added(record, code, cuts)?, wear::answer(record, code, cuts));
    if ours != own {
        return Err(format!(
            "{record:02x?} with {code} {cuts} gave\n  {ours:02x?}, wanted\n  {own:02x?}"
        ));
    }
    Ok(ours.1)
}

/// A list of answers, the record handed on; from the empty record also beside
/// the last 32 of all that were accepted.
pub fn list(random: &mut Random, long: usize) -> Result<(), String> {
    let mut record = wear::begun(random);
    let empty = record == [0; 34];
    let mut accepted: Vec<u64> = Vec::new();
    for _ in 0..long {
        let (code, cuts) = wear::answered(random);
        let (values, _) = added(&record, code, cuts)?;
        record = compared(&record, code, cuts)?;
        if code == 0 && cuts <= 32 {
            accepted.push(cuts);
        }
        let last = &accepted[accepted.len().saturating_sub(32)..];
        let highest = last.iter().max().copied().unwrap_or(0);
        let wanted = [0, last.iter().sum(), highest, last.len() as u64];
        if empty && values[0] == 0 && values != wanted {
            return Err(format!("after {accepted:?}: {values:?}"));
        }
    }
    Ok(())
}
