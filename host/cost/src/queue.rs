//! The queue: what a put and a take copy of its record, and what the library's two calls do, which make the record of
//! bytes. A copy counts from the ring's size on.

use crate::run::{Copies, Program, Value};
use crate::types::Type;
use crate::{shown, size};

const PLACES: usize = 128;
const WORD: u64 = 0xA000;

fn ring(program: &Program) -> usize {
    program.types.size(&Type::Array(Box::new(Type::Int(16)), PLACES))
}

/// The next queue, and what the call copied.
fn call(program: &Program, name: &str, arguments: Vec<Value>) -> (Value, Copies) {
    let mut copies = Copies::new();
    let answered = program.call(name, arguments, ring(program), &mut copies);
    (answered.field(0).clone(), copies)
}

fn put(program: &Program, queue: &Value) -> (Value, Copies) {
    call(program, "queue::Queue::put", vec![queue.clone(), Value::Int(WORD)])
}

fn take(program: &Program, queue: &Value) -> (Value, Copies) {
    call(program, "queue::Queue::take", vec![queue.clone()])
}

/// The bytes of a queue, changed by the library's call, and what that copied.
fn linked(program: &Program, name: &str, bytes: &mut Vec<u8>, others: Vec<Value>) -> Copies {
    let mut copies = Copies::new();
    program.call_lent(&format!("link::queues::dock_queue_{}", name), bytes, others, ring(program), &mut copies);
    copies
}

fn linked_put(program: &Program, bytes: &mut Vec<u8>) -> Copies {
    linked(program, "put", bytes, vec![Value::Int(WORD)])
}

fn linked_take(program: &Program, bytes: &mut Vec<u8>) -> Copies {
    linked(program, "take", bytes, Vec::new())
}

/// In this order: a put into an empty queue, a take from a full one, a refused put and a refused take.
fn tell_calls(copies: [Copies; 4]) {
    let names = ["a put", "a take", "a put that is refused", "a take that is refused"];
    for (name, copies) in names.iter().zip(copies) {
        println!("{}", shown(name, &copies));
    }
}

fn tell_records(program: &Program) {
    let empty = program.call("queue::Queue::empty", Vec::new(), usize::MAX, &mut Copies::new());
    let full = (0..PLACES).fold(empty.clone(), |queue, _| put(program, &queue).0);
    tell_calls([put(program, &empty).1, take(program, &full).1, put(program, &full).1, take(program, &empty).1]);
}

fn tell_linked(program: &Program, bytes: usize) {
    let mut empty = vec![0; bytes];
    linked(program, "begin", &mut empty, Vec::new());
    let mut full = empty.clone();
    (0..PLACES).for_each(|_| drop(linked_put(program, &mut full)));
    tell_calls([
        linked_put(program, &mut empty.clone()),
        linked_take(program, &mut full.clone()),
        linked_put(program, &mut full),
        linked_take(program, &mut empty),
    ]);
}

pub fn tell(program: &Program) {
    let record = size(program, "queue::Queue");
    println!("queue record: {} bytes", record);
    println!("copies of its ring or more in a call on the record, as the program is written:");
    tell_records(program);
    println!(".. in the library's call on its bytes, which are one more:");
    tell_linked(program, record + 1);
}
