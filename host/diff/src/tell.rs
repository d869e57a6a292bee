//! A mismatch that ends the run, told in full.

use crate::compare::{self, Mismatch, Question};
use crate::counts::Counts;
use trial::{shrink, Call};

/// How many calls of a long mismatching list are printed as they were; the shortened list is printed whole.
const SHOWN_CALLS: usize = 400;

pub struct Failure(pub String);

/// With the list as it was, and shortened as far as it still shows the mismatch.
pub fn failure(seed: u64, counts: &Counts, mismatch: Mismatch, question: Question, list: &[Call]) -> Failure {
    let short = shrink(list, |fewer| compare::ask(question, fewer).is_some());
    let mut told = format!(
        "mismatch: seed {}, list {}, after {} words compared\n",
        seed,
        counts.lists,
        counts.words + mismatch.position.unwrap_or(0)
    );
    told += &tell(list, &mismatch);
    if let Some(shortened) = compare::ask(question, &short) {
        told += "shortened:\n";
        told += &tell(&short, &shortened);
    }
    Failure(told)
}

fn tell(list: &[Call], mismatch: &Mismatch) -> String {
    let shown: Vec<String> = list.iter().take(SHOWN_CALLS).map(Call::to_string).collect();
    let more = if list.len() > SHOWN_CALLS { " .." } else { "" };
    let position = mismatch.position.map_or("the whole answer".to_string(), |place| match list.get(place) {
        Some(call) => format!("position {}, {}", place, call),
        None => "after the last word".to_string(),
    });
    format!(
        "  list of {} words and names: {}{}\n  asked: {}\n  at: {}\n{}",
        list.len(),
        shown.join(" "),
        more,
        mismatch.asked,
        position,
        both(mismatch)
    )
}

fn both(mismatch: &Mismatch) -> String {
    format!("  {}: {}\n  model: {}\n", mismatch.side, mismatch.answer, mismatch.model)
}

/// Of a call that takes no list.
pub fn call_agrees(mismatch: Option<Mismatch>, asked: impl Fn() -> String) -> Result<(), Failure> {
    match mismatch {
        None => Ok(()),
        Some(mismatch) => Err(Failure(format!("mismatch: {}\n{}", asked(), both(&mismatch)))),
    }
}
