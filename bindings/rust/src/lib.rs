//! Tufakpeni: a proved reader of GDB trace files and of trace.dat files of version 6.
//!
//! Every answer is the library's, whose functions are proved to say what the published layouts say; this crate gives them Rust's
//! types. Parts of a file are handed back as parts of the caller's own bytes.
//!
//! A GDB trace records neither its byte order nor the base of its R line, so the caller gives [`Settings`], or an [`Order`] alone for
//! base 16. Lines, frames, blocks and CPUs count from 0, and a place counts bytes from the file's start. What cannot be answered is
//! a [`Refusal`], which knows its number and its sentence.
//!
//! For many frames open a [`Trace`], which reads the whole file and then has a table of them. For one frame of a long file there is
//! [`find_frame`], which reads only what that frame needs, and finds it also where the file is at fault elsewhere.
//!
//! The archive that is linked must have this crate's interface. Where it has another, the first call panics with both numbers.
//!
//! ```
//! use tufakpeni::{Order, Trace};
//!
//! let file = b"\x7fTRACE0\nR 2\n\n\x01\0\x03\0\0\0R\xAA\xBB";
//! let trace = Trace::open(Order::Little, file)?;
//! for frame in trace.frames() {
//!     println!("{} {} {}", frame.tracepoint(), frame.place(), frame.data().len());
//! }
//! assert_eq!(trace.registers(0)?, [0xAA, 0xBB]);
//! # Ok::<(), tufakpeni::Refusal>(())
//! ```

mod blocks;
mod dat;
mod edit;
mod find;
mod lines;
mod opening;
mod order;
mod raw;
mod refusal;
mod run;
mod settings;
mod trace;

pub use blocks::{Block, Blocks, Content};
pub use dat::{CpuRange, Ending, Section, TraceDat};
pub use edit::{cut, cut_to_vec, join, join_to_vec, Pair, PairFrame, Selection, Side};
pub use find::{find_frame, FoundFrame};
pub use lines::{Line, LineKind, Lines};
pub use order::Order;
pub use refusal::Refusal;
pub use settings::{Base, Settings};
pub use trace::{Frame, Trace};

/// The length of the longest file that is read, and of the longest join: 64 MiB.
pub const LONGEST: usize = 67_108_864;

#[cfg(test)]
mod tests;
