//! The controller: what the single call copies on a fresh one with a RESET that finds a USB device in bay 0, and then
//! with one event; and likewise the call that a batch's loop makes, on a state that is known to be fit. A copy counts
//! from a bay's size on.

use crate::run::{Copies, Program, Value};
use crate::{shown, size};

const RESET: u64 = 0xC0BF;
const EVENTS: [(&str, u64); 3] = [("TICK", 0xA000), ("PINS", 0x80BF), ("START", 0x0000)];

/// The variant of an answer that refuses nothing.
const OK: usize = 0;

/// The next state, and what the call copied.
fn call(program: &Program, name: &str, arguments: Vec<Value>) -> (Value, Copies) {
    let mut copies = Copies::new();
    let answered = program.call(name, arguments, size(program, "bay::Bay"), &mut copies);
    assert!(matches!(answered.field(1), Value::Variant(OK, _)), "these words are never refused");
    (answered.field(0).clone(), copies)
}

fn step(program: &Program, state: &Value, word: u64) -> (Value, Copies) {
    call(program, "dock::Controller::step", vec![state.clone(), Value::Int(word)])
}

/// With outputs of 0, which are copied like any others.
fn goes(program: &Program, state: &Value, word: u64) -> (Value, Copies) {
    call(program, "dock::Controller::goes", vec![state.clone(), Value::Int(0), Value::Int(word)])
}

fn tell_events(program: &Program, state: &Value, by: fn(&Program, &Value, u64) -> (Value, Copies)) {
    for (name, word) in EVENTS {
        let (_, copies) = by(program, state, word);
        println!("{}", shown(name, &copies));
    }
}

pub fn tell(program: &Program) {
    let (whole, bay) = (size(program, "dock::Controller"), size(program, "bay::Bay"));
    println!("state record: {} bytes, of which each bay has {}", whole, bay);
    let fresh = program.call("dock::Controller::fresh", Vec::new(), usize::MAX, &mut Copies::new());
    let (state, _) = step(program, &fresh, RESET);
    println!("copies of a bay or more in the single call, as the program is written:");
    tell_events(program, &state, step);
    println!(".. in the call of a batch's loop:");
    tell_events(program, &state, goes);
}
