//! The comparison of a reader with the second one: every call, on one file or a pair, with outputs compared whole.

mod alignment;
mod dat;
mod edit;
mod gdb;
mod lent;
mod met;
mod overlaps;
pub mod partial;
mod registers;
pub mod tables;
mod variables;

pub use alignment::Alignment;
pub use met::{Based, Met};
pub use overlaps::Overlaps;
pub use partial::Partial;
pub use registers::Registers;
pub use tables::Tables;
pub use variables::Variables;

use crate::answers::Answer;
use crate::reader::Reader;
use lent::Output;
use std::fmt::{Debug, Display};

/// A call for which the readers answer differently.
#[derive(Debug)]
pub struct Difference {
    pub call: String,
    pub given: String,
    pub second: String,
}

impl Difference {
    fn new(call: impl Display, given: impl Debug, second: impl Debug) -> Self {
        Difference { call: call.to_string(), given: format!("{given:?}"), second: format!("{second:?}") }
    }
}

const NOTHING: [bool; Met::COUNT] = [false; Met::COUNT];

/// What compares a reader with the second one, and counts.
pub struct Comparer<'r> {
    reader: &'r Reader,
    /// How many frames, and blocks of a frame, are asked for one by one.
    most: usize,
    outputs: [Output; 2],
    pub calls: usize,
    /// Of each whether it was met.
    met: [bool; Met::COUNT],
}

/// Compares one call; the first list of arguments stands before the lent files, the second after them.
macro_rules! ask {
    ($comparer:ident.$call:ident([$($before:expr),*] $($file:ident)* [$($after:expr),*])) => {
        $comparer.same(
            format_args!("{}{:?}", stringify!($call), ($($before,)* $($after,)*)),
            ($comparer.reader.$call)($($before,)* $($file,)* $($after,)*),
            (crate::answers::SECOND.$call)($($before,)* $($file,)* $($after,)*),
        )
    };
}
use ask;

impl<'r> Comparer<'r> {
    /// For made files: all frames and blocks but of the few that are large.
    pub fn new(reader: &'r Reader) -> Self {
        Comparer { reader, most: 12, outputs: Default::default(), calls: 0, met: NOTHING }
    }

    /// For every frame and every block, however many.
    pub fn thorough(reader: &'r Reader) -> Self {
        Comparer { most: usize::MAX, ..Comparer::new(reader) }
    }

    /// What was met since this was last asked.
    pub fn take_met(&mut self) -> impl Iterator<Item = Met> {
        let shown = std::mem::replace(&mut self.met, NOTHING);
        Met::all().filter(move |met| shown[met.index()])
    }

    fn meet(&mut self, met: Met) {
        self.met[met.index()] = true;
    }

    /// Counts a call, and tells the answer where both give the same.
    fn same<A: Answer>(&mut self, call: impl Display, given: A, second: A) -> Result<A, Difference> {
        if second.refusal() != 0 {
            self.meet(Met::Refusal(second.refusal()));
        }
        self.equal(call, given, second)
    }

    /// The same of a call that refuses nothing.
    fn equal<T: PartialEq + Debug>(&mut self, call: impl Display, given: T, second: T) -> Result<T, Difference> {
        self.calls += 1;
        if given != second {
            return Err(Difference::new(call, given, second));
        }
        Ok(second)
    }

    /// Holds the second reader to what the file's making settles.
    fn settled(&self, making: Option<u8>, refusal: u8) -> Result<(), Difference> {
        match making {
            Some(settled) if settled != refusal => {
                Err(Difference::new("the refusal that the file's making settles", settled, refusal))
            }
            _ => Ok(()),
        }
    }
}

/// Numbers around a count that are worth asking for, and the first of those below it.
fn indices(count: usize, most: usize) -> impl Iterator<Item = usize> {
    let last = count.saturating_sub(1).max(most.min(count));
    (0..count.min(most)).chain(last..=count + 1).chain([usize::MAX])
}
