//! Slips about ranges that overlap, by readers that go by units of 1,024 bytes, 64 to a word.

use super::{bad, end, read_with, Slip};
use std::collections::HashSet;
use std::ops::Range;
use tufakpeni_tests::answers::SECOND;
use tufakpeni_tests::reader::Reader;
use tufakpeni_tests::second::dat::CpuRange;

const UNIT: u64 = 1_024;
const WORD: u64 = 64;

/// A reader for which two ranges overlap where they share one of the units that this tells of a range.
macro_rules! sharing {
    (|$range:ident| $units:expr) => {
        Reader {
            dat_read: |file| {
                read_with(file, bad, |ranges| shared(ranges.iter().filter(|range| range.size > 0), |$range| $units))
            },
            ..SECOND
        }
    };
}

pub const SLIPS: [Slip; 10] = [
    ("the last unit not claimed", sharing!(|range| (first(range)..(range.offset + range.size) / UNIT).collect())),
    (
        "the last unit not claimed for a byte of it",
        sharing!(|range| (first(range)..(range.offset + range.size + UNIT - 2) / UNIT).collect()),
    ),
    ("a unit more claimed", sharing!(|range| (first(range)..behind(range) + 1).collect())),
    ("the last word claimed whole", sharing!(|range| (first(range)..behind(range).next_multiple_of(WORD)).collect())),
    ("the first word claimed whole", sharing!(|range| (first(range) / WORD * WORD..behind(range)).collect())),
    ("words between not claimed", sharing!(|range| ends(range))),
    ("one word claimed", sharing!(|range| units(range).filter(|unit| unit / WORD == first(range) / WORD).collect())),
    ("the first held to the others alone", Reader { dat_read: |file| read_with(file, bad, first_overlaps), ..SECOND }),
    ("the last held to the others alone", Reader { dat_read: |file| read_with(file, bad, last_overlaps), ..SECOND }),
    (
        "ranges of size 0 claimed",
        Reader { dat_read: |file| read_with(file, bad, |ranges| shared(ranges.iter(), |range| near(range))), ..SECOND },
    ),
];

/// All units of a range: two ranges share a byte exactly where they share one.
pub const UNITS: Reader = sharing!(|range| units(range).collect());

fn first_overlaps(ranges: &[CpuRange]) -> bool {
    ranges.split_first().is_some_and(|(one, others)| others.iter().any(|other| overlap(one, other)))
}

fn last_overlaps(ranges: &[CpuRange]) -> bool {
    ranges.split_last().is_some_and(|(one, others)| others.iter().any(|other| overlap(one, other)))
}

fn overlap(one: &CpuRange, other: &CpuRange) -> bool {
    one.size.min(other.size) > 0 && u128::from(one.offset) < end(other) && u128::from(other.offset) < end(one)
}

fn shared<'r>(ranges: impl Iterator<Item = &'r CpuRange>, units: fn(&CpuRange) -> Vec<u64>) -> bool {
    let mut taken = HashSet::new();
    ranges.flat_map(units).any(|unit| !taken.insert(unit))
}

fn first(range: &CpuRange) -> u64 {
    range.offset / UNIT
}

fn behind(range: &CpuRange) -> u64 {
    (range.offset + range.size).div_ceil(UNIT)
}

fn units(range: &CpuRange) -> Range<u64> {
    first(range)..behind(range)
}

/// The units of a range's first and last words.
fn ends(range: &CpuRange) -> Vec<u64> {
    let words = [first(range) / WORD, (behind(range) - 1) / WORD];
    units(range).filter(|unit| words.contains(&(unit / WORD))).collect()
}

/// The units of a range, and of one of size 0 that of its offset.
fn near(range: &CpuRange) -> Vec<u64> {
    if range.size == 0 {
        vec![first(range)]
    } else {
        units(range).collect()
    }
}
