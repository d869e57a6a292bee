//! Holds the proved library's queue against the model's: the same puts and takes to both, every answer compared.
//!
//!     queue [CALLS [SEED]]
//!
//! CALLS is how many calls are compared at least (5,000,000 if not given), SEED where the generator begins. After every
//! call the answer and every byte of the queue are compared with the model's, and what stands before and after them. The
//! answers alone are held against the request's promise too: the words taken, followed by the words waiting, are the
//! words accepted. There are queues that were begun, that were kept as bytes and taken back, and that nobody saved.

mod calls;
mod counts;
mod follow;
mod images;
mod ledger;
mod run;

use run::Run;
use std::process::ExitCode;

const CALLS: usize = 5_000_000;
const SEED: u64 = 1;

fn number<T: std::str::FromStr>(argument: Option<String>, default: T) -> Result<T, String> {
    match argument {
        None => Ok(default),
        Some(text) => text.replace(['_', ','], "").parse().map_err(|_| format!("queue: {} is no number", text)),
    }
}

fn arguments() -> Result<(usize, u64), String> {
    let mut arguments = std::env::args().skip(1);
    let calls = number(arguments.next(), CALLS)?;
    let seed = number(arguments.next(), SEED)?;
    match arguments.next() {
        None => Ok((calls, seed)),
        Some(_) => Err("usage: queue [CALLS [SEED]]".to_string()),
    }
}

fn main() -> ExitCode {
    let (calls, seed) = match arguments() {
        Ok(numbers) => numbers,
        Err(message) => {
            eprintln!("{}", message);
            return ExitCode::from(2);
        }
    };
    let mut run = Run::new(seed);
    match run.everything(calls) {
        Ok(()) => {
            println!("seed {}: {}", seed, run.counts());
            ExitCode::SUCCESS
        }
        Err(told) => {
            print!("mismatch: seed {}, {}", seed, told);
            ExitCode::FAILURE
        }
    }
}
