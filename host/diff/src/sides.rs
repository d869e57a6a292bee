//! The controllers that are asked the same: the proved library in two ways, the model, and the C controller.

use dock::ffi;
use model::{numbers, Controller};
use paper::{Calls, StateCalls};

/// A whole history in one call; for questions, a held state that was stepped word by word.
pub const LIBRARY: Calls = Calls {
    name: "library",
    replay: ffi::replay,
    reading: |words, address| ffi::reading(&stepped(words), address),
    outputs: |words| ffi::outputs(&stepped(words)),
};

/// A begun state that was given the words as a batch.
pub const HELD: Calls = Calls {
    name: "library, a held state",
    replay: |words, records| ffi::batch(&mut begun(), words, records),
    reading: |words, address| ffi::reading(&batched(words), address),
    outputs: |words| ffi::outputs(&batched(words)),
};

pub const MODEL: Calls = Calls {
    name: "model",
    replay: numbers::replay,
    reading: |words, address| u32::from(Controller::after(words).reading(address)),
    outputs: |words| u32::from(Controller::after(words).outputs()),
};

pub const PLAIN: Calls =
    Calls { name: "C controller", replay: plain::replay, reading: plain::reading, outputs: plain::outputs };

/// The held state by calls on it, for what needs names between the words: in batches, and word by word.
pub const LIBRARY_IN_BATCHES: StateCalls<State> = StateCalls {
    name: "library, in batches",
    fresh: begun,
    name_kind: |state, number| ffi::name_kind(state, number),
    batch: |state, words, records| ffi::batch(state, words, records),
    reading: |state, address| ffi::reading(state, address),
    outputs: |state| ffi::outputs(state),
};

pub const LIBRARY_BY_STEPS: StateCalls<State> = StateCalls {
    name: "library, word by word",
    batch: |state, words, records| {
        for (&word, record) in words.iter().zip(records.chunks_exact_mut(dock::RECORD_BYTES)) {
            record.copy_from_slice(&ffi::step(state, word).to_be_bytes());
        }
        words.len() as u32
    },
    ..LIBRARY_IN_BATCHES
};

pub const MODEL_IN_BATCHES: StateCalls<Controller> = StateCalls {
    name: "model",
    fresh: Controller::new,
    name_kind: numbers::name_kind,
    batch: numbers::batch,
    reading: |dock, address| dock.reading(address).into(),
    outputs: |dock| dock.outputs().into(),
};

type State = [u8; dock::STATE_BYTES];

fn begun() -> State {
    let mut state = [0; dock::STATE_BYTES];
    ffi::begin(&mut state);
    state
}

fn stepped(words: &[u16]) -> State {
    let mut state = begun();
    for &word in words {
        ffi::step(&mut state, word);
    }
    state
}

fn batched(words: &[u16]) -> State {
    let mut state = begun();
    let mut records = vec![0; dock::RECORD_BYTES * words.len()];
    ffi::batch(&mut state, words, &mut records);
    state
}
