//! Selections, right and wrong ones.

use super::{gdb, Random};
use crate::c::{Range, Selection};

/// A right selection of 0 to 8 ranges, which may touch or overlap. What stands beyond the count is of any sort.
pub fn right(random: &mut Random) -> Selection {
    let count = random.pick(&[0, 1, 1, 1, 2, 2, 3, 5, 7, 8]);
    let mut ranges = [Range::default(); 8];
    for (index, range) in ranges.iter_mut().enumerate() {
        *range = any_range(random);
        if index < count && range.low > range.high {
            *range = Range { low: range.high, high: range.low };
        }
    }
    Selection { ranges, count, keep: random.pick(&[0, 0, 1, 1, 2, 255]) }
}

/// A number that a range may name: also 0, which no frame has.
fn tracepoint(random: &mut Random) -> u16 {
    if random.one_in(10) {
        0
    } else {
        gdb::tracepoint(random)
    }
}

fn any_range(random: &mut Random) -> Range {
    let low = tracepoint(random);
    let high = match random.below(4) {
        0 => low,
        1 => low.saturating_add(random.below(3) as u16),
        _ => tracepoint(random),
    };
    Range { low, high }
}

/// A selection with a range too many, or one whose low is above its high.
pub fn wrong(random: &mut Random) -> Selection {
    let mut selection = right(random);
    if random.one_in(2) {
        selection.count = random.pick(&[9, 10, 255, 256, 264, 1 << 32, usize::MAX]);
    } else {
        selection.count = selection.count.max(1);
        let high = tracepoint(random).min(65_534);
        let above = random.pick(&[high + 1, 65_535]);
        selection.ranges[random.below(selection.count)] = Range { low: above, high };
    }
    selection
}
