//! The byte order of a file's numbers.

/// The byte order of a file's numbers. A GDB trace does not record it, so the caller gives it.
#[derive(Clone, Copy, Debug, PartialEq, Eq, Hash)]
pub enum Order {
    /// The low byte first.
    Little,
    /// The high byte first.
    Big,
}

impl Order {
    /// The library's number of it.
    pub(crate) fn number(self) -> u8 {
        match self {
            Order::Little => 0,
            Order::Big => 1,
        }
    }

    pub(crate) fn of_number(number: u8) -> Order {
        if number == 0 {
            Order::Little
        } else {
            Order::Big
        }
    }

    pub(crate) fn four_bytes(self, n: u32) -> [u8; 4] {
        match self {
            Order::Little => n.to_le_bytes(),
            Order::Big => n.to_be_bytes(),
        }
    }
}
