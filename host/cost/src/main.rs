//! Counts the records that the program copies in a call, as it is written and before it is compiled.
//!
//!     cat {crates/*/out/rlib/*,KIT/rlibs/core}.rlib/toolchain/mir.json | cost [queue]
//!
//! It reads the program as the toolchain keeps it beside each proved library and its own, and runs calls of it. A
//! copy is a value of at least a certain size that is passed, returned, put into another record or taken out of one.
//! The compiler may leave copies out.

mod controller;
mod json;
mod queue;
mod run;
mod types;

use std::io::Read;
use std::process::ExitCode;

use run::{Copies, Program};
use types::Type;

fn size(program: &Program, name: &str) -> usize {
    program.types.size(&Type::Named(name.to_string(), Vec::new()))
}

/// A line: how many, of what call, and of what.
fn shown(name: &str, copies: &Copies) -> String {
    let parts: Vec<String> = copies.iter().map(|(what, count)| format!("{} of {}", count, what)).collect();
    format!("    {:>5}  {} ({})", copies.values().sum::<usize>(), name, parts.join("; "))
}

fn main() -> ExitCode {
    let tell = match std::env::args().nth(1).as_deref() {
        None => controller::tell,
        Some("queue") => queue::tell,
        Some(_) => {
            eprintln!("usage: cost [queue]");
            return ExitCode::from(2);
        }
    };
    let mut text = String::new();
    std::io::stdin().read_to_string(&mut text).expect("the libraries' programs on standard input");
    tell(&Program::new(&json::parse(&text)));
    ExitCode::SUCCESS
}
