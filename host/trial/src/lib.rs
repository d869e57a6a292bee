//! What the tests that hold the proved library against the model share.

mod bytes;
mod call;
mod chassis;
pub mod held;
pub mod lists;
mod queue;
mod random;
mod shrink;

pub use bytes::{hex, pattern, Room};
pub use call::Call;
pub use chassis::HeldChassis;
pub use held::{Held, Mismatch, TOO_MANY};
pub use queue::HeldQueue;
pub use random::Random;
pub use shrink::shrink;
