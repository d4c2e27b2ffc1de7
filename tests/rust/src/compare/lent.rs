//! Outputs as they are lent: filled with a pattern, and with guards around them.

use super::Difference;
use crate::c::Frame;
use crate::reader::{fields, Record};
use std::fmt::Display;

const GUARD: usize = 16;

/// A lent output of bytes. One serves many calls, since fresh memory for the longest costs more than the call.
#[derive(Default)]
pub struct Output {
    bytes: Vec<u8>,
}

impl Output {
    /// The pattern in this length, whatever it was before.
    pub fn renew(&mut self, length: usize) {
        self.bytes.clear();
        self.bytes.extend((0..length + 2 * GUARD).map(|place| (place as u8).wrapping_mul(37) ^ 0xA5));
    }

    pub fn lent(&mut self) -> &mut [u8] {
        let end = self.bytes.len() - GUARD;
        &mut self.bytes[GUARD..end]
    }

    /// Every byte, guards among them.
    pub fn same(&self, call: impl Display, second: &Output) -> Result<(), Difference> {
        if self.bytes == second.bytes {
            return Ok(());
        }
        let place = (0..self.bytes.len()).find(|&place| self.bytes[place] != second.bytes[place]).unwrap_or(0);
        let call = format!("{call}: byte {} of the output", place as isize - GUARD as isize);
        Err(Difference::new(call, self.bytes[place], second.bytes[place]))
    }
}

/// A lent list of frame records.
pub struct Table {
    records: Vec<Record>,
}

impl Table {
    pub fn new(length: usize) -> Self {
        let word = |place: usize| (place as u64 + 1).wrapping_mul(0x9E37_79B9_7F4A_7C15);
        let records = (0..length + 2 * GUARD).map(|n| [0, 1, 2, 3].map(|k| word(4 * n + k))).collect();
        Table { records }
    }

    pub fn lent(&mut self) -> &mut [Record] {
        let end = self.records.len() - GUARD;
        &mut self.records[GUARD..end]
    }

    /// The record of frame n.
    pub fn row(&self, n: usize) -> Frame {
        fields(&self.records[GUARD + n])
    }

    /// The fields of the first `written` records, and every byte of the others, guards among them.
    pub fn same(&self, call: impl Display, second: &Table, written: usize) -> Result<(), Difference> {
        for (index, (given, second)) in self.records.iter().zip(&second.records).enumerate() {
            let filled = (GUARD..GUARD + written).contains(&index);
            if if filled { fields(given) != fields(second) } else { given != second } {
                let call = format!("{call}: record {}", index as isize - GUARD as isize);
                return Err(Difference::new(call, fields(given), fields(second)));
            }
        }
        Ok(())
    }
}
