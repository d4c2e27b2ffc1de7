//! Cutting and joining GDB traces, and two traces read as if joined.

use super::gdb::{Frame, Trace};
use super::{Part, Refusal, Settings, MAX_LENGTH};

/// Tracepoint numbers from `low` to `high`, both among them.
#[derive(Clone, Copy, Debug, Default, PartialEq, Eq)]
pub struct TracepointRange {
    pub low: u16,
    pub high: u16,
}

/// The numbers in some of the first `count` ranges, or those in none.
#[derive(Clone, Copy, Debug, PartialEq, Eq)]
pub struct Selection {
    pub ranges: [TracepointRange; 8],
    pub count: usize,
    pub keep: bool,
}

impl Selection {
    /// The selection of the other sense.
    pub fn opposite(self) -> Self {
        Selection { keep: !self.keep, ..self }
    }

    /// The selection with the ranges that count, where it is a right one.
    pub fn check(&self) -> Result<Checked<'_>, Refusal> {
        let ranges = self.ranges.get(..self.count).ok_or(Refusal::BadArgument)?;
        if ranges.iter().any(|range| range.low > range.high) {
            return Err(Refusal::BadArgument);
        }
        Ok(Checked { ranges, keep: self.keep })
    }
}

/// A selection of at most eight ranges, each with low not above high.
#[derive(Clone, Copy)]
pub struct Checked<'s> {
    ranges: &'s [TracepointRange],
    keep: bool,
}

impl Checked<'_> {
    pub fn selects(&self, tracepoint: u16) -> bool {
        let within = self.ranges.iter().any(|range| (range.low..=range.high).contains(&tracepoint));
        within == self.keep
    }
}

/// The opening, every selected frame and the end mark, if any; the answer is their length.
pub fn cut(settings: Settings, file: &[u8], selection: &Selection, out: &mut [u8]) -> Result<usize, Refusal> {
    let selection = selection.check()?;
    let trace = Trace::read(settings, file)?;
    let selected = || trace.frames().filter(|frame| selection.selects(frame.tracepoint)).map(Frame::whole);
    let selected_length = selected().map(|part| part.length).sum::<usize>();
    let length = trace.opening().len() + selected_length + trace.mark().len();
    let out = out.get_mut(..length).ok_or(Refusal::NoRoom)?;
    let mut out = append(out, trace.opening());
    for Part { place, length } in selected() {
        out = append(out, &file[place..place + length]);
    }
    append(out, trace.mark());
    Ok(length)
}

/// Puts bytes at the front of what remains of an output, and gives what then remains.
fn append<'o>(out: &'o mut [u8], bytes: &[u8]) -> &'o mut [u8] {
    let (front, rest) = out.split_at_mut(bytes.len());
    front.copy_from_slice(bytes);
    rest
}

/// The common opening, the first trace's frames, the second's, then the end mark if either has it; the answer is their
/// length.
pub fn join(settings: Settings, first: &[u8], second: &[u8], out: &mut [u8]) -> Result<usize, Refusal> {
    let pair = Pair::read(settings, first, second)?;
    let length = pair.length();
    let mut out = out.get_mut(..length).ok_or(Refusal::NoRoom)?;
    for piece in pair.pieces() {
        out = append(out, piece);
    }
    Ok(length)
}

/// Two traces that can be joined.
#[derive(Clone, Copy)]
pub struct Pair<'a> {
    first: Trace<'a>,
    second: Trace<'a>,
}

/// Which trace of a pair.
#[derive(Clone, Copy, Debug, PartialEq, Eq)]
pub enum Which {
    First,
    Second,
}

impl<'a> Pair<'a> {
    pub fn read(settings: Settings, first: &'a [u8], second: &'a [u8]) -> Result<Self, Refusal> {
        let pair = Pair { first: Trace::read(settings, first)?, second: Trace::read(settings, second)? };
        if pair.first.opening() != pair.second.opening() {
            return Err(Refusal::OpeningsDiffer);
        }
        if pair.length() > MAX_LENGTH {
            return Err(Refusal::TooLong);
        }
        Ok(pair)
    }

    /// What the join is made of, in order.
    fn pieces(&self) -> [&'a [u8]; 4] {
        let Pair { first, second } = self;
        let mark = if first.is_marked() { first.mark() } else { second.mark() };
        [first.opening(), first.frame_bytes(), second.frame_bytes(), mark]
    }

    /// The length of the join.
    fn length(&self) -> usize {
        self.pieces().iter().map(|piece| piece.len()).sum()
    }

    /// The trace that holds frame n of the pair, and the frame's number there.
    fn locate(&self, n: usize) -> (Which, &Trace<'a>, usize) {
        match n.checked_sub(self.first.frame_count()) {
            None => (Which::First, &self.first, n),
            Some(n) => (Which::Second, &self.second, n),
        }
    }

    /// The data of frame n.
    pub fn frame(&self, n: usize) -> Result<(Which, Part), Refusal> {
        let (which, trace, n) = self.locate(n);
        Ok((which, trace.frame(n)?.data))
    }

    /// The value of a variable in frame n.
    pub fn variable(&self, n: usize, number: u32) -> Result<i64, Refusal> {
        let (_, trace, n) = self.locate(n);
        trace.variable(n, number)
    }
}
