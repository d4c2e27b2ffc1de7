//! What the comparison of a file meets.

use super::{Alignment, Overlaps, Partial, Registers, Tables, Variables};
use crate::c::Settings;
use crate::second::Refusal;

/// Something that files are to meet often.
#[derive(Clone, Copy, Debug, PartialEq, Eq)]
pub enum Met {
    Refusal(u8),
    /// An accepted file, with the end mark or without.
    Marked(bool),
    /// A join that was made, of traces with the end mark or without.
    Join {
        first: bool,
        second: bool,
    },
    Based(Based),
    /// What a trace shows of register blocks, in one byte order and base.
    Registers {
        shown: Registers,
        big: bool,
        ten: bool,
    },
    /// What a frame shows of a variable that is asked for, in one byte order.
    Variables {
        shown: Variables,
        big: bool,
    },
    /// What a frame table shows of register blocks, in one byte order.
    Tables {
        shown: Tables,
        big: bool,
    },
    /// What the data of a frame that is asked for by its number show, in one byte order.
    Partial {
        shown: Partial,
        big: bool,
    },
    Alignment(Alignment),
    Overlaps(Overlaps),
}

/// What a trace shows of the base in which it is read.
#[derive(Clone, Copy, Debug, PartialEq, Eq)]
pub enum Based {
    /// 2, and the byte order is right.
    Wrong,
    /// 5 in base 10, and in base 16.
    BadTen,
    BadSixteen,
    /// Accepted in base 10, or in base 16, with decimal digits that spell another number in the other base.
    UnlikeTen,
    UnlikeSixteen,
    /// Accepted in base 16 with letters: of lower case, of upper case, of both.
    Lower,
    Upper,
    Mixed,
    /// As many digits as base 10, or base 16, takes.
    FullTen,
    FullSixteen,
    /// Accepted with a register block, and in the other base refused at a block with 8 or 9.
    BlockRefused,
    /// Accepted in both bases with register blocks of unlike sizes.
    BlockUnlike,
}

impl Based {
    pub const ALL: [Based; 12] = [
        Based::Wrong,
        Based::BadTen,
        Based::BadSixteen,
        Based::UnlikeTen,
        Based::UnlikeSixteen,
        Based::Lower,
        Based::Upper,
        Based::Mixed,
        Based::FullTen,
        Based::FullSixteen,
        Based::BlockRefused,
        Based::BlockUnlike,
    ];

    /// What the digits of an accepted R line show.
    pub fn of_digits(base: u8, digits: &[u8]) -> impl Iterator<Item = Based> {
        let (ten, sixteen) = (base == 10, base == 16);
        let lower = digits.iter().any(u8::is_ascii_lowercase);
        let upper = digits.iter().any(u8::is_ascii_uppercase);
        // What stands before the last digit counts ten times or sixteen times.
        let before_last = digits.iter().rev().skip(1).any(|&digit| digit != b'0');
        let unlike = before_last && !lower && !upper;
        let shown = [
            (Based::UnlikeTen, ten && unlike),
            (Based::UnlikeSixteen, sixteen && unlike),
            (Based::Lower, lower && !upper),
            (Based::Upper, upper && !lower),
            (Based::Mixed, lower && upper),
            (Based::FullTen, ten && digits.len() == 5),
            (Based::FullSixteen, sixteen && digits.len() == 4),
        ];
        shown.into_iter().filter(|&(_, so)| so).map(|(based, _)| based)
    }
}

impl Met {
    /// How many there are.
    pub const COUNT: usize = Met::OVERLAPS + Overlaps::COUNT;

    /// The first number of those about register blocks, variables, frame tables, frames by their numbers, alignment and overlaps.
    const REGISTERS: usize = Refusal::LAST as usize + 6 + Based::ALL.len();
    const VARIABLES: usize = Met::REGISTERS + 4 * Registers::ALL.len();
    const TABLES: usize = Met::VARIABLES + 2 * Variables::ALL.len();
    const PARTIAL: usize = Met::TABLES + 2 * Tables::ALL.len();
    const ALIGNMENT: usize = Met::PARTIAL + 2 * Partial::ALL.len();
    const OVERLAPS: usize = Met::ALIGNMENT + Alignment::COUNT;

    /// A number of its own below the count.
    pub fn index(self) -> usize {
        let last = usize::from(Refusal::LAST);
        match self {
            Met::Refusal(number) => usize::from(number) - 1,
            Met::Marked(marked) => last + usize::from(marked),
            Met::Join { first, second } => last + 2 + 2 * usize::from(first) + usize::from(second),
            Met::Based(based) => last + 6 + based as usize,
            Met::Registers { shown, big, ten } => {
                Met::REGISTERS + 4 * shown as usize + 2 * usize::from(big) + usize::from(ten)
            }
            Met::Variables { shown, big } => Met::VARIABLES + 2 * shown as usize + usize::from(big),
            Met::Tables { shown, big } => Met::TABLES + 2 * shown as usize + usize::from(big),
            Met::Partial { shown, big } => Met::PARTIAL + 2 * shown as usize + usize::from(big),
            Met::Alignment(shown) => Met::ALIGNMENT + shown.index(),
            Met::Overlaps(shown) => Met::OVERLAPS + shown.index(),
        }
    }

    pub fn registers(shown: Registers, settings: Settings) -> Self {
        Met::Registers { shown, big: settings.order == 1, ten: settings.base == 10 }
    }

    pub fn variables(shown: Variables, settings: Settings) -> Self {
        Met::Variables { shown, big: settings.order == 1 }
    }

    pub fn tables(shown: Tables, settings: Settings) -> Self {
        Met::Tables { shown, big: settings.order == 1 }
    }

    pub fn partial(shown: Partial, settings: Settings) -> Self {
        Met::Partial { shown, big: settings.order == 1 }
    }

    pub fn all() -> impl Iterator<Item = Met> {
        let refusals = (1..=Refusal::LAST).map(Met::Refusal);
        let marks = [false, true].map(Met::Marked);
        let bases = Based::ALL.map(Met::Based);
        refusals.chain(marks).chain(Met::joins()).chain(bases).chain(Met::all_of_frames()).chain(Met::all_ranges())
    }

    /// All that is shown of frames, counted apart for each byte order.
    pub fn all_of_frames() -> impl Iterator<Item = Met> {
        Met::all_registers().chain(Met::all_variables()).chain(Met::all_tables()).chain(Met::all_partial())
    }

    /// Joins of all four markings.
    pub fn joins() -> impl Iterator<Item = Met> {
        let markings = [(false, false), (false, true), (true, false), (true, true)];
        markings.into_iter().map(|(first, second)| Met::Join { first, second })
    }

    /// All that is shown of register blocks, in both byte orders and both bases.
    fn all_registers() -> impl Iterator<Item = Met> {
        let settings = [(false, false), (false, true), (true, false), (true, true)];
        let shown = Registers::ALL.into_iter();
        shown.flat_map(move |shown| settings.map(|(big, ten)| Met::Registers { shown, big, ten }))
    }

    /// All that is shown of variables, in both byte orders.
    fn all_variables() -> impl Iterator<Item = Met> {
        Variables::ALL.into_iter().flat_map(|shown| [false, true].map(|big| Met::Variables { shown, big }))
    }

    /// All that is shown of frame tables, in both byte orders.
    fn all_tables() -> impl Iterator<Item = Met> {
        Tables::ALL.into_iter().flat_map(|shown| [false, true].map(|big| Met::Tables { shown, big }))
    }

    /// All that is shown of CPU ranges, counted apart for each byte order: alignment by each page size, and overlaps.
    pub fn all_ranges() -> impl Iterator<Item = Met> {
        Alignment::all().map(Met::Alignment).chain(Overlaps::all().map(Met::Overlaps))
    }

    /// All that is shown of frames by their numbers, in both byte orders.
    fn all_partial() -> impl Iterator<Item = Met> {
        Partial::ALL.into_iter().flat_map(|shown| [false, true].map(|big| Met::Partial { shown, big }))
    }
}
