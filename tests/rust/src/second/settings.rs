//! How a trace is to be read: the byte order of its numbers and the base of its R line.

use super::{Order, Refusal};

/// What the caller says, right or wrong.
#[derive(Clone, Copy, Debug, PartialEq, Eq)]
pub struct Settings {
    pub order: u8,
    pub base: u8,
}

impl Settings {
    /// The settings of a caller that says nothing of the base.
    pub fn of_order(order: u8) -> Self {
        Settings { order, base: 16 }
    }

    pub fn check(self) -> Result<(Order, Base), Refusal> {
        let order = Order::from_flag(self.order).ok_or(Refusal::BadArgument)?;
        let base = BASES.into_iter().find(|base| base.radix == self.base).ok_or(Refusal::BadArgument)?;
        Ok((order, base))
    }
}

/// A base, and how many digits a number has in it at most.
#[derive(Clone, Copy, Debug, PartialEq, Eq)]
pub struct Base {
    radix: u8,
    most_digits: usize,
}

const BASES: [Base; 2] = [Base { radix: 10, most_digits: 5 }, Base { radix: 16, most_digits: 4 }];

impl Base {
    /// The number that these bytes spell: all of them digits, at least one, and the number at most 65,535.
    pub fn number(self, digits: &[u8]) -> Option<u16> {
        if digits.is_empty() || digits.len() > self.most_digits {
            return None;
        }
        digits.iter().try_fold(0, |number: u16, &byte| {
            let digit = char::from(byte).to_digit(self.radix.into())?;
            number.checked_mul(self.radix.into())?.checked_add(u16::try_from(digit).ok()?)
        })
    }
}
