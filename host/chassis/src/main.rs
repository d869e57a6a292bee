//! Holds the proved library's chassis against the model's: the same events for one to four controllers on one bus to
//! both, every answer compared.
//!
//!     chassis [CALLS [SEED]]
//!
//! CALLS is how many calls are compared at least (1,000,000 if not given), SEED where the generator begins. After every
//! call the answer and every byte of the list are compared with the model's, and what stands before and after them.
//! They are held against the library's own single calls on each record too, with no model. There are lists that were
//! begun, that events led to, that were put together from records of other lists, and that nobody saved.

mod alone;
mod calls;
mod counts;
mod follow;
mod lists;
mod reasons;
mod run;
mod seen;
mod situations;

use run::Run;
use std::process::ExitCode;

const CALLS: usize = 1_000_000;
const SEED: u64 = 1;

fn number<T: std::str::FromStr>(argument: Option<String>, default: T) -> Result<T, String> {
    match argument {
        None => Ok(default),
        Some(text) => text.replace(['_', ','], "").parse().map_err(|_| format!("chassis: {} is no number", text)),
    }
}

fn arguments() -> Result<(usize, u64), String> {
    let mut arguments = std::env::args().skip(1);
    let calls = number(arguments.next(), CALLS)?;
    let seed = number(arguments.next(), SEED)?;
    match arguments.next() {
        None => Ok((calls, seed)),
        Some(_) => Err("usage: chassis [CALLS [SEED]]".to_string()),
    }
}

fn main() -> ExitCode {
    let (calls, seed) = match arguments() {
        Ok(numbers) => numbers,
        Err(message) => {
            eprintln!("{}", message);
            return ExitCode::from(2);
        }
    };
    let mut run = Run::new(seed);
    match run.everything(calls) {
        Ok(()) => {
            println!("seed {}: {}", seed, run.counts());
            ExitCode::SUCCESS
        }
        Err(told) => {
            print!("mismatch: seed {}, {}", seed, told);
            ExitCode::FAILURE
        }
    }
}
