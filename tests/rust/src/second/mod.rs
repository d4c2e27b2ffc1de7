//! The second reader: the rules of both formats in plain Rust, written from the published layouts and the project's
//! rules and from nothing of the library. It takes any bytes and any arguments, as the library does.

pub mod dat;
pub mod edit;
pub mod gdb;
mod order;
mod refusal;
mod settings;

pub use order::Order;
pub use refusal::Refusal;
pub use settings::{Base, Settings};

/// The longest file that is read, and the longest result of a join.
pub const MAX_LENGTH: usize = 67_108_864;

/// `length` bytes of a file from `place` on.
#[derive(Clone, Copy, Debug, PartialEq, Eq)]
pub struct Part {
    pub place: usize,
    pub length: usize,
}

impl Part {
    pub fn end(self) -> usize {
        self.place + self.length
    }
}
