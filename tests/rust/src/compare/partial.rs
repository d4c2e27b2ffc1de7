//! What the question about the data of frame n shows, which reads only parts of the file: answers for files that are
//! refused, and where each refusal stands.

use crate::answers::Answer;
use crate::c::{Frame as Row, FramePart};
use crate::letters::{Frame, Frames};
use crate::second::gdb::FRAME_HEAD;
use crate::second::Refusal;

/// What an answer for frame n shows.
#[derive(Clone, Copy, Debug, PartialEq, Eq)]
pub enum Partial {
    /// Answered though the file is refused: for a fault anywhere behind frame n, for one in the head right behind it,
    /// for one in the blocks of an earlier frame.
    FaultBehind,
    HeadFaultBehind,
    FaultBefore,
    /// Answered for the last frame ahead of the end mark.
    LastOfMarked,
    /// 7 by the size of an earlier frame, and by its own.
    EarlierSize,
    OwnSize,
    /// 6, 18 where the head of an earlier frame should start.
    EarlierShortHead,
    EarlierBadMark,
    /// 6 where its own head should start.
    ShortHead,
    /// 18 there: with fewer than six bytes left, and with as many as a head has or more.
    ShortMark,
    LongMark,
    /// 8, 9, 10 and 24 in its own blocks.
    BadLetter,
    BlockPastData,
    NoRegisterSize,
    SecondRegisters,
    /// 12 by the file's end, by the end mark; of an accepted file, of a refused one.
    AtEnd,
    AtMark,
    OfAccepted,
    OfRefused,
}

impl Partial {
    pub const ALL: [Partial; 19] = [
        Partial::FaultBehind,
        Partial::HeadFaultBehind,
        Partial::FaultBefore,
        Partial::LastOfMarked,
        Partial::EarlierSize,
        Partial::OwnSize,
        Partial::EarlierShortHead,
        Partial::EarlierBadMark,
        Partial::ShortHead,
        Partial::ShortMark,
        Partial::LongMark,
        Partial::BadLetter,
        Partial::BlockPastData,
        Partial::NoRegisterSize,
        Partial::SecondRegisters,
        Partial::AtEnd,
        Partial::AtMark,
        Partial::OfAccepted,
        Partial::OfRefused,
    ];
}

/// A trace whose frames are asked for.
pub struct Asked<'f> {
    apart: &'f Frames<'f>,
    /// The refusal of the whole file, 0 where it is accepted.
    whole: u8,
    /// The numbers of the frames at fault, in order.
    faults: Vec<usize>,
}

type Shown = (Partial, bool);

impl<'f> Asked<'f> {
    pub fn new(apart: &'f Frames<'f>, whole: u8) -> Self {
        let numbered = apart.frames.iter().enumerate();
        let faults = numbered.filter(|(_, frame)| frame.is_refused()).map(|(n, _)| n).collect();
        Asked { apart, whole, faults }
    }

    /// What an answer for frame n shows.
    pub fn shown(&self, n: usize, refusal: u8) -> impl Iterator<Item = Partial> {
        let shown = if refusal == 0 { self.of_answer(n) } else { self.of_refusal(n, refusal) };
        shown.into_iter().filter(|&(_, so)| so).map(|(shown, _)| shown)
    }

    fn of_answer(&self, n: usize) -> Vec<Shown> {
        let Frames { frames, tail, end, .. } = self.apart;
        let behind = &frames[n + 1..];
        let bad_end = end.is_some();
        vec![
            (Partial::FaultBehind, bad_end || self.faults.last().is_some_and(|&last| last > n)),
            (Partial::HeadFaultBehind, behind.first().map_or(bad_end, Frame::is_past_file)),
            (Partial::FaultBefore, self.faults.first().is_some_and(|&first| first < n)),
            (Partial::LastOfMarked, behind.is_empty() && !bad_end && !tail.is_empty()),
        ]
    }

    fn of_refusal(&self, n: usize, refusal: u8) -> Vec<Shown> {
        let Frames { frames, tail, .. } = self.apart;
        // The head at fault is that of the first frame past these, or of the last where 7 is its refusal.
        let (own, earlier) = (n == frames.len(), n > frames.len());
        let (is_short, is_marked) = (tail.len() < FRAME_HEAD, !tail.is_empty());
        let is = |other: Refusal| refusal == other as u8;
        let (past_file, short, bad_mark) = (is(Refusal::DataPastFile), is(Refusal::ShortHead), is(Refusal::BadMark));
        let not_found = is(Refusal::NotFound);
        vec![
            (Partial::EarlierSize, past_file && (own || earlier)),
            (Partial::OwnSize, past_file && !own && !earlier),
            (Partial::EarlierShortHead, short && earlier),
            (Partial::EarlierBadMark, bad_mark && earlier),
            (Partial::ShortHead, short && own),
            (Partial::ShortMark, bad_mark && own && is_short),
            (Partial::LongMark, bad_mark && own && !is_short),
            (Partial::BadLetter, is(Refusal::BadLetter)),
            (Partial::BlockPastData, is(Refusal::BlockPastData)),
            (Partial::NoRegisterSize, is(Refusal::NoRegisterSize)),
            (Partial::SecondRegisters, is(Refusal::SecondRegisters)),
            (Partial::AtEnd, not_found && !is_marked),
            (Partial::AtMark, not_found && is_marked),
            (Partial::OfAccepted, not_found && self.whole == 0),
            (Partial::OfRefused, not_found && self.whole != 0),
        ]
    }
}

/// The answer for frame n of an accepted file, by its record in the frame table; 12 where it has none.
pub fn by_record(n: usize, row: Option<Row>) -> FramePart {
    match row {
        Some(Row { place, size, .. }) => FramePart { refusal: 0, place, length: size, heads: n + 1 },
        None => FramePart::refused(Refusal::NotFound as u8),
    }
}

/// The refusal of the first frame that is not answered, by that of the whole file: the same, or 12 where there is none.
pub fn first_refusal(whole: u8) -> u8 {
    if whole == 0 {
        return Refusal::NotFound as u8;
    }
    whole
}
