//! How a GDB trace is read.
use crate::Order;

/// The base of the number in a trace's R line, which says how many bytes a register block has. The line is `R ` and then digits
/// alone: no prefix, sign or blank. Leading zeros count as digits.
#[derive(Clone, Copy, Debug, PartialEq, Eq, Hash)]
pub enum Base {
    /// One to five digits, and a value of at most 65,535, as the published page has it: `R 776`.
    Ten,
    /// One to four digits, letters in either case. Debuggers write it so: `R 308` for 776.
    Sixteen,
}

impl Base {
    /// The library's number of it.
    pub(crate) fn number(self) -> u8 {
        match self {
            Base::Ten => 10,
            Base::Sixteen => 16,
        }
    }
}

/// How a GDB trace is read; the file records neither. An [`Order`] alone is settings too, with base 16:
///
/// ```
/// use tufakpeni::{Base, Order, Settings, Trace};
///
/// let block = [&b"\x01\0\x11\0\0\0R"[..], &[0xAA; 16]].concat();
/// let saved = [b"\x7fTRACE0\nR 10\n\n", &block[..]].concat();
/// assert_eq!(Trace::open(Order::Little, &saved)?.registers(0)?, [0xAA; 16]);
///
/// let archived = [b"\x7fTRACE0\nR 16\n\n", &block[..]].concat();
/// let decimal = Settings { order: Order::Little, base: Base::Ten };
/// assert_eq!(Trace::open(decimal, &archived)?.registers(0)?, [0xAA; 16]);
/// assert!(Trace::open(Order::Little, &archived).is_err());
/// # Ok::<(), tufakpeni::Refusal>(())
/// ```
#[derive(Clone, Copy, Debug, PartialEq, Eq, Hash)]
pub struct Settings {
    pub order: Order,
    pub base: Base,
}

impl From<Order> for Settings {
    /// This byte order and base 16.
    fn from(order: Order) -> Settings {
        Settings { order, base: Base::Sixteen }
    }
}
