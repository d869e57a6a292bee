//! Holds the proved library, and the C controller of the benchmark, against the model: the same words to all, every
//! answer compared.
//!
//!     diff [WORDS [SEED]]
//!
//! WORDS is how many words of generated lists are replayed at least (3,000,000 if not given), SEED where the
//! generator begins. Each list is replayed in one call, and given to a held state twice: word by word, and in batches;
//! half of them name kinds of controller between their words. Before them come the version, the paper's examples and
//! stories, each held against the paper's numbers, all packs and unpacks, every word as a list of its own, and the lists
//! at the limit of a batch.

mod buttons;
mod compare;
mod counts;
mod image;
mod names;
mod presses;
mod pulses;
mod reads;
mod run;
mod second_kind;
mod seen;
mod sides;
mod situations;
mod tell;
mod waits;
mod walk;

use run::Run;
use std::process::ExitCode;
use tell::Failure;

const WORDS: usize = 3_000_000;
const SEED: u64 = 1;

fn number<T: std::str::FromStr>(argument: Option<String>, default: T) -> Result<T, String> {
    match argument {
        None => Ok(default),
        Some(text) => text.replace(['_', ','], "").parse().map_err(|_| format!("diff: {} is no number", text)),
    }
}

fn arguments() -> Result<(usize, u64), String> {
    let mut arguments = std::env::args().skip(1);
    let words = number(arguments.next(), WORDS)?;
    let seed = number(arguments.next(), SEED)?;
    match arguments.next() {
        None => Ok((words, seed)),
        Some(_) => Err("usage: diff [WORDS [SEED]]".to_string()),
    }
}

fn main() -> ExitCode {
    let (words, seed) = match arguments() {
        Ok(numbers) => numbers,
        Err(message) => {
            eprintln!("{}", message);
            return ExitCode::from(2);
        }
    };
    let mut run = Run::new(seed);
    let outcome = run.everything(words);
    if let Err(Failure(told)) = outcome {
        print!("{}", told);
        return ExitCode::FAILURE;
    }
    println!("{}", run.counts.held.seen);
    println!("seed {}: {} compared: 0 mismatches", seed, run.counts);
    ExitCode::SUCCESS
}
