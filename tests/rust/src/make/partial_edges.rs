//! GDB traces at fault in some frames or behind them, while the frames around are sound: each frame may be asked for.

use super::gdb::{Frame, Trace, END_MARK};
use super::gdb_edges::{any_bad_mark, any_frame, no_mark, refused, Edge};
use super::register_edges::{faulty, others, two, BAD_LETTERS};
use super::{Made, Random};
use crate::c::Settings;
use crate::second::Refusal;

// The first of them more often, since it has most to show.
pub const EDGES: [Edge; 3] = [faults, faults, other_size];

/// None, one or two frames at fault among sound ones, and behind them every sort of end.
fn faults(random: &mut Random, settings: Settings) -> Made {
    let size = random.pick(&[None, None, Some(0), Some(2), Some(8)]);
    let mut trace = Trace::with_frames(random, settings, size);
    trace.marked = false;
    let mut refusals = vec![None; trace.frames.len()];
    for _ in 0..random.pick(&[0, 1, 1, 2]) {
        let n = random.below(trace.frames.len() + 1);
        let (frame, refusal) = fault(random, settings.order, size);
        trace.frames.insert(n, frame);
        refusals.insert(n, Some(refusal));
    }
    let (tail, refusal) = any_end(random);
    refusals.push(refusal);
    let first = refusals.into_iter().flatten().next();
    Made::new("faults", [trace.bytes(), tail].concat(), Some(first.map_or(0, |refusal| refusal as u8)))
}

/// A frame at fault and its refusal: 8, 9, 7, 18, or with two register blocks 24, 8 where a bad letter stands between
/// them, and 10 without an R line.
fn fault(random: &mut Random, order: u8, size: Option<usize>) -> (Frame, Refusal) {
    if random.one_in(2) {
        return faulty(random, order);
    }
    let (between, refusal) = match (size, random.below(3)) {
        (None, _) => (others(random, order, 0..2), Refusal::NoRegisterSize),
        (_, 0) => (vec![vec![random.pick(BAD_LETTERS)]], Refusal::BadLetter),
        _ => (others(random, order, 0..2), Refusal::SecondRegisters),
    };
    (Frame::of(two(random, order, size.unwrap_or(0), between)), refusal)
}

/// What stands behind the last frame, and its refusal: nothing, the end mark, one to five bytes, or a bad mark.
fn any_end(random: &mut Random) -> (Vec<u8>, Option<Refusal>) {
    match random.below(4) {
        0 => (Vec::new(), None),
        1 => (END_MARK.to_vec(), None),
        2 => {
            let length = 1 + random.below(5);
            (no_mark(random, length), Some(Refusal::ShortHead))
        }
        _ => (any_bad_mark(random), Some(Refusal::BadMark)),
    }
}

/// A frame among others whose size is not that of its data: up to the file's end, past it by one, or off by a little,
/// so that the next head is read elsewhere.
fn other_size(random: &mut Random, settings: Settings) -> Made {
    let (mut trace, n) = any_frame(random, settings, Some(2));
    let size = trace.frames[n].data().len();
    let front = Trace { frames: trace.frames[..=n].to_vec(), marked: false, ..trace.clone() };
    let left = trace.bytes().len() - front.bytes().len() + size;
    let past = random.one_in(2);
    let off = random.pick(&[left, size.saturating_sub(1), size + 1, size + 6, 0]);
    trace.frames[n].size = Some(if past { left + 1 } else { off } as u32);
    let settled = refused(Refusal::DataPastFile).filter(|_| past);
    Made::new("other size", trace.bytes(), settled)
}
