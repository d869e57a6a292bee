//! A list of calls on one queue, each compared with the model and with the ledger, and a list told that shows a mismatch.

use crate::calls::Call;
use crate::counts::Counts;
use crate::ledger::Ledger;
use trial::{hex, shrink, HeldQueue, Mismatch};

/// Where an image has its two numbers, two bytes each.
const START: usize = 1;
const COUNT: usize = 3;

/// So many calls of a mismatching list are printed.
const SHOWN: usize = 200;

/// What the list makes of the queue. The calls are counted.
pub fn follow(before: &[u8], list: &[Call], counts: &mut Counts) -> Result<Vec<u8>, Mismatch> {
    let mut held = HeldQueue::of_bytes(before);
    let mut ledger = Ledger::of(&held);
    for &call in list {
        let start = number(held.bytes(), START);
        let answer = one(&mut held, call)?;
        counts.count(call, answer);
        counts.rounds += usize::from(call == Call::Take && number(held.bytes(), START) < start);
        match (call, answer >> 16) {
            (_, 1) | (Call::Keep, _) => {}
            (Call::Begin, _) => ledger = Ledger::default(),
            (Call::Put(word), _) => ledger.put(word, answer)?,
            (Call::Take, _) => ledger.take(answer)?,
        }
    }
    if held.model().is_some() {
        ledger.holds(&held)?;
    }
    Ok(held.bytes().to_vec())
}

/// The library's answer.
fn one(held: &mut HeldQueue, call: Call) -> Result<u32, Mismatch> {
    match call {
        Call::Put(word) => held.put(word),
        Call::Take => held.take(),
        Call::Begin => held.begin(),
        Call::Keep => {
            *held = HeldQueue::of_bytes(held.bytes());
            Ok(0)
        }
    }
}

/// None where the bytes are too few.
fn number(bytes: &[u8], place: usize) -> Option<u16> {
    bytes.get(place..place + 2).map(|two| u16::from_be_bytes([two[0], two[1]]))
}

/// With the list as it was, and shortened as far as it still shows a mismatch.
pub fn tell(before: &[u8], list: &[Call], mismatch: &Mismatch) -> String {
    let followed = |list: &[Call]| follow(before, list, &mut Counts::default());
    let short = shrink(list, |fewer| followed(fewer).is_err());
    let mut told = tell_list(before, list, mismatch);
    match followed(&short) {
        Err(shortened) if short.len() < list.len() => {
            told += "shortened: ";
            told += &tell_list(before, &short, &shortened);
        }
        _ => {}
    }
    told
}

fn tell_list(before: &[u8], list: &[Call], mismatch: &Mismatch) -> String {
    let Mismatch { asked, library, model } = mismatch;
    let calls: Vec<_> = list.iter().take(SHOWN).map(Call::to_string).collect();
    let more = if list.len() > SHOWN { " .." } else { "" };
    let calls = calls.join(" ") + more;
    let head = format!("calls in the list: {}\n  queue before: {}\n  calls: {}\n", list.len(), shown(before), calls);
    head + &format!("  asked: {}\n  library: {}\n  model: {}\n", asked, library, model)
}

/// What decides, and then all bytes.
fn shown(queue: &[u8]) -> String {
    let numbers = match (number(queue, START), number(queue, COUNT)) {
        (Some(start), Some(count)) => format!("start {}, count {}, ", start, count),
        _ => String::new(),
    };
    format!("{}{} bytes: {}", numbers, queue.len(), hex(queue))
}
