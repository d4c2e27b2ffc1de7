//! Slips about which offsets are multiples of the page size.

use super::{bad, end, read_with, two_overlap, Bounds, Slip};
use tufakpeni_tests::answers::SECOND;
use tufakpeni_tests::reader::Reader;
use tufakpeni_tests::second::dat::CpuRange;

/// A reader that takes a range to be off a page's start by these bits, given the page size.
macro_rules! off_by {
    (|$range:ident, $page:ident| $bits:expr) => {
        Reader {
            dat_read: |file| {
                read_with(
                    file,
                    |$range, bounds| {
                        let $page = bounds.page;
                        $range.size > 0 && ($bits != 0 || misplaced($range, bounds))
                    },
                    two_overlap,
                )
            },
            ..SECOND
        }
    };
}

pub const SLIPS: [Slip; 7] = [
    ("the mask without its lowest bit", off_by!(|range, page| range.offset & (page - 2))),
    ("the mask without its highest bit", off_by!(|range, page| range.offset & (page / 2 - 1))),
    ("the size itself as the mask", off_by!(|range, page| range.offset & page)),
    ("one mask for every size", off_by!(|range, page| range.offset & (page.min(1_024) - 1))),
    ("ranges of one byte alone", off_by!(|range, page| if range.size == 1 { range.offset & (page - 1) } else { 0 })),
    ("several bits let through", off_by!(|range, page| one_bit_or_all(range.offset & (page - 1), page))),
    (
        "the low 32 bits of an offset",
        Reader { dat_read: |file| read_with(file, bad_by_low_bits, two_overlap), ..SECOND },
    ),
];

/// All that the bits below the size tell.
pub const LOW_BITS: Reader = off_by!(|range, page| range.offset & (page - 1));

fn misplaced(range: &CpuRange, bounds: &Bounds) -> bool {
    range.offset < bounds.header_end || end(range) > bounds.file_end.into()
}

fn bad_by_low_bits(range: &CpuRange, bounds: &Bounds) -> bool {
    bad(&CpuRange { offset: range.offset % (1 << 32), ..*range }, bounds)
}

fn one_bit_or_all(off: u64, page: u64) -> u64 {
    if off.is_power_of_two() || off == page - 1 {
        off
    } else {
        0
    }
}
