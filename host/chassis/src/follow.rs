//! A list of calls on one chassis, each compared with the model and with the library's single calls, and a list told
//! that shows a mismatch.

use crate::alone::Told;
use crate::calls::Call;
use crate::counts::Counts;
use dock::STATE_BYTES;
use trial::{hex, shrink, HeldChassis, Mismatch};

/// So many calls of a mismatching list are printed.
const SHOWN: usize = 200;

/// What the calls make of the list. They are counted.
pub fn follow(before: &[u8], calls: &[Call], counts: &mut Counts) -> Result<Vec<u8>, Mismatch> {
    let mut held = HeldChassis::of_bytes(before);
    for &call in calls {
        match call {
            Call::Step { record, word } => step(&mut held, record, word, counts)?,
            Call::Name { place, number } => {
                held.name_kind(place, number)?;
                counts.names += 1;
            }
            Call::Keep => {
                held = HeldChassis::of_bytes(held.bytes());
                counts.kept += 1;
            }
        }
    }
    Ok(held.bytes().to_vec())
}

fn step(held: &mut HeldChassis, record: u64, word: u16, counts: &mut Counts) -> Result<(), Mismatch> {
    let before = held.bytes().to_vec();
    let answer = held.step(record, word)?;
    let told = Told { before: &before, record, word, answer, after: held.bytes() };
    told.holds()?;
    counts.count(&told);
    Ok(())
}

/// With the calls as they were, and shortened as far as they still show a mismatch.
pub fn tell(before: &[u8], calls: &[Call], mismatch: &Mismatch) -> String {
    let followed = |calls: &[Call]| follow(before, calls, &mut Counts::default());
    let short = shrink(calls, |fewer| followed(fewer).is_err());
    let mut told = tell_list(before, calls, mismatch);
    match followed(&short) {
        Err(shortened) if short.len() < calls.len() => {
            told += "shortened: ";
            told += &tell_list(before, &short, &shortened);
        }
        _ => {}
    }
    told
}

fn tell_list(before: &[u8], calls: &[Call], mismatch: &Mismatch) -> String {
    let Mismatch { asked, library, model } = mismatch;
    let shown: Vec<_> = calls.iter().take(SHOWN).map(Call::to_string).collect();
    let more = if calls.len() > SHOWN { " .." } else { "" };
    let records: Vec<_> = before.chunks(STATE_BYTES).map(|image| format!("    {}\n", hex(image))).collect();
    let head = format!("calls in the list: {}\n  {} bytes before:\n{}", calls.len(), before.len(), records.concat());
    let calls = format!("  calls, each as record:word: {}{}\n", shown.join(" "), more);
    head + &calls + &format!("  asked: {}\n  library: {}\n  model: {}\n", asked, library, model)
}
