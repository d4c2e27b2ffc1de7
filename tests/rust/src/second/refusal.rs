//! The numbers of the refusals.

/// Why a call does not answer.
#[derive(Clone, Copy, Debug, PartialEq, Eq)]
#[repr(u8)]
pub enum Refusal {
    TooLong = 1,
    BadArgument = 2,
    BadHead = 3,
    NoEmptyLine = 4,
    BadLine = 5,
    ShortHead = 6,
    DataPastFile = 7,
    BadLetter = 8,
    BlockPastData = 9,
    NoRegisterSize = 10,
    NoRoom = 11,
    NotFound = 12,
    OpeningsDiffer = 13,
    FieldPastFile = 14,
    BadConstant = 15,
    BadRange = 16,
    RangesOverlap = 17,
    BadMark = 18,
    SecondRegisters = 24,
}

impl Refusal {
    /// The highest number.
    pub const LAST: u8 = Refusal::SecondRegisters as u8;
}
