//! The refusals: why a call does not answer.
use std::error::Error;
use std::fmt;

/// Why a call does not answer, one case for each row of document 01's table and for each that document 02 adds.
///
/// ```
/// use tufakpeni::{Order, Refusal, Trace};
///
/// let refusal = Trace::open(Order::Little, b"").unwrap_err();
/// assert_eq!(refusal, Refusal::BadHead);
/// assert_eq!(refusal.number(), 3);
/// assert_eq!(refusal.to_string(), "refusal 3: the head differs or is cut short");
/// ```
#[derive(Clone, Copy, Debug, PartialEq, Eq, Hash)]
#[repr(u8)]
pub enum Refusal {
    /// A file, or a join's result, is longer than [`LONGEST`](crate::LONGEST).
    TooLong = 1,
    /// A range with low above high, or more than 8 ranges. (A wrong byte order and a wrong base are in the same row;
    /// [`Settings`](crate::Settings) have neither.)
    BadArgument = 2,
    /// The head differs or is cut short.
    BadHead = 3,
    /// The description has no empty line.
    NoEmptyLine = 4,
    /// An ended `R ` line breaks its form in the chosen [`Base`](crate::Base), or there is a second `R ` or `status ` line.
    BadLine = 5,
    /// 1 to 5 bytes remain where a frame head should start, and do not begin with two bytes of 0.
    ShortHead = 6,
    /// A frame's data runs past the file.
    DataPastFile = 7,
    /// A block letter other than R, M, V.
    BadLetter = 8,
    /// A block runs past its frame's data.
    BlockPastData = 9,
    /// An `R` block where no R line was given.
    NoRegisterSize = 10,
    /// The result is longer than the output.
    NoRoom = 11,
    /// No such line, frame, block, CPU; no covering block; no such register block or variable.
    NotFound = 12,
    /// The openings to be joined differ.
    OpeningsDiffer = 13,
    /// A trace.dat field or named piece runs past the file.
    FieldPastFile = 14,
    /// A trace.dat fixed string, flag, long size or page size is wrong.
    BadConstant = 15,
    /// The CPU count is above 1,024, or a CPU range is misaligned, before the header's end or past the file.
    BadRange = 16,
    /// Two CPU ranges overlap.
    RangesOverlap = 17,
    /// A bad end mark: two bytes of 0 where a frame head should start, and not exactly four of 0 from there to the file's end.
    BadMark = 18,
    /// A second `R` block in a frame.
    SecondRegisters = 24,
}

impl Refusal {
    /// Every refusal, in the order of their numbers.
    pub const ALL: [Refusal; 19] = [
        Refusal::TooLong,
        Refusal::BadArgument,
        Refusal::BadHead,
        Refusal::NoEmptyLine,
        Refusal::BadLine,
        Refusal::ShortHead,
        Refusal::DataPastFile,
        Refusal::BadLetter,
        Refusal::BlockPastData,
        Refusal::NoRegisterSize,
        Refusal::NoRoom,
        Refusal::NotFound,
        Refusal::OpeningsDiffer,
        Refusal::FieldPastFile,
        Refusal::BadConstant,
        Refusal::BadRange,
        Refusal::RangesOverlap,
        Refusal::BadMark,
        Refusal::SecondRegisters,
    ];

    /// Its number, 1 to 18 or 24.
    pub fn number(self) -> u8 {
        self as u8
    }

    /// The refusal of a number, if there is one.
    pub fn of_number(number: u8) -> Option<Refusal> {
        Refusal::ALL.into_iter().find(|refusal| refusal.number() == number)
    }

    /// When it is given, in the words of documents 01 and 02.
    pub fn sentence(self) -> &'static str {
        match self {
            Refusal::TooLong => "a file, or a join's result, is longer than 67,108,864 bytes",
            Refusal::BadArgument => {
                "an argument is wrong: byte order not 0 or 1; base not 10 or 16; a range with low above high; more than 8 ranges"
            }
            Refusal::BadHead => "the head differs or is cut short",
            Refusal::NoEmptyLine => "the description has no empty line",
            Refusal::BadLine => "an ended `R ` line breaks its form in the chosen base, or a second `R ` or `status ` line",
            Refusal::ShortHead => "1 to 5 bytes remain where a frame head should start",
            Refusal::DataPastFile => "a frame's data runs past the file",
            Refusal::BadLetter => "a block letter other than R, M, V",
            Refusal::BlockPastData => "a block runs past its frame's data",
            Refusal::NoRegisterSize => "an `R` block where no R line was given",
            Refusal::NoRoom => "the result is longer than the output, or there are more frames than records",
            Refusal::NotFound => {
                "no such line, frame, block, CPU; no covering block; no such register block or variable"
            }
            Refusal::OpeningsDiffer => "the openings to be joined differ",
            Refusal::FieldPastFile => "a trace.dat field or named piece runs past the file",
            Refusal::BadConstant => "a trace.dat fixed string, flag, long size or page size is wrong",
            Refusal::BadRange => {
                "CPU count above 1,024; a CPU range misaligned, before the header's end or past the file"
            }
            Refusal::RangesOverlap => "two CPU ranges overlap",
            Refusal::BadMark => "a bad end mark",
            Refusal::SecondRegisters => "a second `R` block in a frame",
        }
    }
}

impl fmt::Display for Refusal {
    fn fmt(&self, f: &mut fmt::Formatter<'_>) -> fmt::Result {
        write!(f, "refusal {}: {}", self.number(), self.sentence())
    }
}

impl Error for Refusal {}
