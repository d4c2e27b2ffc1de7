//! What a trace.dat file shows of ranges beside each other.

use crate::second::dat;
use crate::second::{Order, Refusal};

/// Each CPU range that holds something passes by itself, and there are several: whether two overlap, whether they stand in the order of
/// their offsets, and whether one of them is longer than 64 units of 1,024 bytes.
#[derive(Clone, Copy, Debug, PartialEq, Eq)]
pub struct Overlaps {
    pub overlap: bool,
    pub sorted: bool,
    pub long: bool,
    pub big: bool,
}

impl Overlaps {
    pub const COUNT: usize = 16;

    /// A number of its own below the count.
    pub fn index(self) -> usize {
        let shown = [self.overlap, self.sorted, self.long, self.big];
        shown.into_iter().fold(0, |number, bit| 2 * number + usize::from(bit))
    }

    pub fn all() -> impl Iterator<Item = Overlaps> {
        (0..Overlaps::COUNT).map(|number| {
            let [overlap, sorted, long, big] = [8, 4, 2, 1].map(|bit| number & bit != 0);
            Overlaps { overlap, sorted, long, big }
        })
    }

    pub fn of_file(file: &[u8]) -> Option<Overlaps> {
        let overlap = match dat::read(file) {
            Ok(_) => false,
            Err(Refusal::RangesOverlap) => true,
            Err(_) => return None,
        };
        let header = dat::header(file).ok()?;
        let held: Vec<_> = dat::cpu_ranges(&header, file).filter(|range| range.size > 0).collect();
        let sorted = held.is_sorted_by_key(|range| range.offset);
        let long = held.iter().any(|range| range.size > 64 * 1_024);
        (held.len() > 1).then_some(Overlaps { overlap, sorted, long, big: header.order == Order::Big })
    }
}
