//! Files at the length limit, and of many frames and blocks.

use super::gdb::{memory_at, variable, Frame, Trace, END_MARK};
use super::{Made, MadeTrace, Random};
use crate::c::Settings;
use crate::second::MAX_LENGTH;

/// The largest memory block with its letter, address and length.
const BLOCK: usize = 11 + 65_535;

/// A trace of an opening `H 0A` and of one frame, with memory blocks that fill the file to this length, the end mark
/// counted where it has one.
pub fn trace(settings: Settings, marked: bool, length: usize) -> Vec<u8> {
    let mut trace = Trace { marked, ..Trace::bare(settings) };
    let mut left = length - trace.opening().len() - 6 - trace.mark().len();
    let mut blocks = Vec::new();
    while left > 0 {
        // A rest of 1 to 10 bytes would hold no block.
        let size = if left > BLOCK && left < BLOCK + 11 { BLOCK - 11 } else { left.min(BLOCK) };
        blocks.push(memory_at(settings.order, left as u64, &vec![b'M'; size - 11]));
        left -= size;
    }
    trace.frames.push(Frame::of(blocks));
    trace.bytes()
}

/// Two traces of each marking whose join is as long as may be, or longer by this much. The mark counts in it once;
/// where there is one, the join would be short enough without it.
pub fn joined(settings: Settings, beyond: usize) -> impl Iterator<Item = MadeTrace> {
    let mark = |marked: bool| if marked { END_MARK.len() } else { 0 };
    let opening = Trace::bare(settings).opening().len();
    let markings = [(false, false), (false, true), (true, false), (true, true)];
    markings.into_iter().map(move |(first, second)| {
        let half = MAX_LENGTH / 2;
        let rest = half + beyond - mark(first || second);
        let made = Made::new("longest join", trace(settings, first, half + mark(first)), Some(0));
        MadeTrace { made, settings, partner: trace(settings, second, opening + rest + mark(second)) }
    })
}

/// A trace of more frames than 16 bits count, and of as many variables in its first one.
pub fn many(settings: Settings) -> Vec<u8> {
    const COUNT: usize = 70_000;
    let order = settings.order;
    let random = &mut Random::new(order.into());
    let blocks = (0..COUNT).map(|_| variable(random, order)).collect();
    let mut frames = vec![Frame::of(blocks)];
    frames.extend((0..COUNT).map(|n| Frame { tracepoint: (n as u16).max(1), ..Frame::of(Vec::new()) }));
    Trace { frames, marked: order == 1, ..Trace::bare(settings) }.bytes()
}

/// A file continued with zero bytes to one that is as long as may be, or longer by this much.
pub fn filled(mut bytes: Vec<u8>, beyond: usize) -> Vec<u8> {
    bytes.resize(MAX_LENGTH + beyond, 0);
    bytes
}
