//! What a trace.dat file shows of where pages start.

use crate::second::dat::{self, CpuRange};
use crate::second::Order;

/// All CPU ranges that hold something lie behind the header and in the file; whether they all start where pages of this size do.
#[derive(Clone, Copy, Debug, PartialEq, Eq)]
pub struct Alignment {
    /// The page size is 2 to the power of 10 and this.
    pub power: u8,
    pub aligned: bool,
    pub big: bool,
}

impl Alignment {
    pub const COUNT: usize = 7 * 4;

    /// A number of its own below the count.
    pub fn index(self) -> usize {
        4 * usize::from(self.power) + 2 * usize::from(self.aligned) + usize::from(self.big)
    }

    pub fn all() -> impl Iterator<Item = Alignment> {
        let shown = [(false, false), (false, true), (true, false), (true, true)];
        (0..7).flat_map(move |power| shown.map(|(aligned, big)| Alignment { power, aligned, big }))
    }

    pub fn of_file(file: &[u8]) -> Option<Alignment> {
        let header = dat::header(file).ok()?;
        let held: Vec<_> = dat::cpu_ranges(&header, file).filter(|range| range.size > 0).collect();
        let placed = held.iter().all(|range| lies_in(range, header.body.end() as u64, file.len() as u64));
        let aligned = held.iter().all(|range| range.offset.is_multiple_of(header.page_size.into()));
        let power = (header.page_size.trailing_zeros() - 10) as u8;
        (placed && !held.is_empty()).then_some(Alignment { power, aligned, big: header.order == Order::Big })
    }
}

/// Whether a range lies from the header's end on and within the file.
fn lies_in(range: &CpuRange, header_end: u64, file_end: u64) -> bool {
    header_end <= range.offset && range.offset.checked_add(range.size).is_some_and(|end| end <= file_end)
}
