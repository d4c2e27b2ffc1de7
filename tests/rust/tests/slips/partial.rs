//! Slips about the data of a frame by its number: what is read for them, what is judged, and what is counted.

use super::{instead, swapped, Slip};
use tufakpeni_tests::answers::{Answer, SECOND};
use tufakpeni_tests::c::{FramePart, Settings};
use tufakpeni_tests::letters::{Frame, Frames};
use tufakpeni_tests::reader::Reader;
use tufakpeni_tests::second::gdb::FRAME_HEAD;
use tufakpeni_tests::second::Refusal;

/// A reader that answers so for frame n of a file.
macro_rules! answering {
    (|$asked:ident| $answer:expr) => {
        Reader {
            frame_place: |settings, file, n| {
                let right = (SECOND.frame_place)(settings, file, n);
                let $asked = Asked { settings, file, n, right };
                $answer
            },
            ..SECOND
        }
    };
}

/// What is told besides the place and the length.
pub const COUNT_SLIPS: [Slip; 7] = [
    ("a count of n", answering!(|asked| asked.counting(|asked| Some(asked.n)))),
    ("a count of the file's frames", answering!(|asked| asked.counting(|asked| Some(asked.apart()?.frames.len())))),
    ("a count of one head", answering!(|asked| asked.counting(|_| Some(1)))),
    ("only heads with data counted", answering!(|asked| asked.counting(Asked::heads_with_data))),
    ("a count on a refusal", answering!(|asked| FramePart { heads: asked.heads_read(), ..asked.right })),
    ("a place on a refusal", answering!(|asked| FramePart { place: asked.place_reached(), ..asked.right })),
    ("the place of the head", answering!(|asked| asked.placed(asked.right.place.saturating_sub(FRAME_HEAD)))),
];

/// Which blocks and which part of the file are judged.
pub const READ_SLIPS: [Slip; 12] = [
    ("the whole file read first", answering!(|asked| asked.unless(asked.whole()))),
    ("the whole file read where 12 is due", answering!(|asked| asked.refused_as(Refusal::NotFound, asked.whole()))),
    ("the blocks of every frame up to n judged", answering!(|asked| asked.unless(asked.first_refusal()))),
    ("the blocks of the first frame judged", answering!(|asked| asked.unless(asked.refusal_of(0)))),
    ("the blocks of the frame before judged", answering!(|asked| asked.unless(asked.refusal_of(asked.before())))),
    ("the blocks of the frame behind judged", answering!(|asked| asked.unless(asked.refusal_behind(IN_BLOCKS)))),
    ("the head behind judged", answering!(|asked| asked.unless(asked.refusal_behind(IN_A_HEAD)))),
    ("the blocks of frame n not judged", answering!(|asked| asked.unjudged(IN_BLOCKS))),
    ("8 let through", answering!(|asked| asked.unjudged(&[Refusal::BadLetter]))),
    ("9 let through", answering!(|asked| asked.unjudged(&[Refusal::BlockPastData]))),
    ("the data of the frame before", answering!(|asked| asked.data_of(asked.before()))),
    ("the data of the frame behind", answering!(|asked| asked.data_of(asked.n.saturating_add(1)))),
];

/// What stands where a head should start.
pub const HEAD_SLIPS: [Slip; 11] = [
    ("12 for a head cut short", answering!(|asked| asked.swapped(Refusal::ShortHead, Refusal::NotFound, true))),
    ("12 for a bad mark", answering!(|asked| asked.swapped(Refusal::BadMark, Refusal::NotFound, true))),
    ("12 for a mark cut short", answering!(|asked| asked.swapped(Refusal::BadMark, Refusal::NotFound, asked.few()))),
    ("6 for a mark cut short", answering!(|asked| asked.swapped(Refusal::BadMark, Refusal::ShortHead, asked.few()))),
    ("18 for the mark", answering!(|asked| asked.swapped(Refusal::NotFound, Refusal::BadMark, asked.left() > 0))),
    ("6 for the mark", answering!(|asked| asked.swapped(Refusal::NotFound, Refusal::ShortHead, asked.left() > 0))),
    ("6 for the end", answering!(|asked| asked.swapped(Refusal::NotFound, Refusal::ShortHead, asked.left() == 0))),
    ("12 for an earlier size", answering!(|asked| asked.swapped(PAST, Refusal::NotFound, asked.is_behind_all()))),
    ("12 for its own size", answering!(|asked| asked.swapped(PAST, Refusal::NotFound, !asked.is_behind_all()))),
    ("an earlier number 0 let through", answering!(|asked| asked.with_number(|asked, zero| zero < asked.n))),
    ("its own number 0 let through", answering!(|asked| asked.with_number(|asked, zero| zero == asked.n))),
];

const PAST: Refusal = Refusal::DataPastFile;
const IN_A_HEAD: &[Refusal] = &[PAST, Refusal::ShortHead, Refusal::BadMark];
const IN_BLOCKS: &[Refusal] =
    &[Refusal::BadLetter, Refusal::SecondRegisters, Refusal::NoRegisterSize, Refusal::BlockPastData];

/// A question about frame n, and its right answer.
struct Asked<'f> {
    settings: Settings,
    file: &'f [u8],
    n: usize,
    right: FramePart,
}

impl Asked<'_> {
    fn apart(&self) -> Option<Frames<'_>> {
        Frames::read(self.settings, self.file)
    }

    fn answer_for(&self, n: usize) -> FramePart {
        (SECOND.frame_place)(self.settings, self.file, n)
    }

    /// The right answer with another count.
    fn counting(&self, heads: fn(&Self) -> Option<usize>) -> FramePart {
        instead(self.right, || Some(FramePart { heads: heads(self)?, ..self.right }))
    }

    /// The right answer with another place.
    fn placed(&self, place: usize) -> FramePart {
        instead(self.right, || Some(FramePart { place, ..self.right }))
    }

    fn heads_with_data(&self) -> Option<usize> {
        let apart = self.apart()?;
        Some(apart.frames[..=self.n].iter().filter(|frame| !frame.blocks.is_empty()).count())
    }

    /// How many heads are read, for a refusal too.
    fn heads_read(&self) -> usize {
        let heads = self.apart().map_or(0, |apart| apart.frames.len());
        self.n.saturating_add(1).min(heads)
    }

    /// Where the data of frame n stand, whether or not they are sound, or those of the last frame before it.
    fn place_reached(&self) -> usize {
        let heads = self.heads_read();
        self.apart().filter(|_| heads > 0).map_or(0, |apart| data(&apart, heads - 1).0)
    }

    /// The right answer but where this is a refusal.
    fn unless(&self, refusal: u8) -> FramePart {
        if refusal == 0 {
            return self.right;
        }
        FramePart::refused(refusal)
    }

    /// A refusal in the place of this one.
    fn refused_as(&self, from: Refusal, refusal: u8) -> FramePart {
        if self.right.refusal == from as u8 {
            return self.unless(refusal);
        }
        self.right
    }

    fn swapped(&self, from: Refusal, to: Refusal, so: bool) -> FramePart {
        swapped(self.right, from, to, so)
    }

    fn whole(&self) -> u8 {
        (SECOND.frame_count)(self.settings, self.file).refusal
    }

    fn before(&self) -> usize {
        self.n.saturating_sub(1)
    }

    fn refusal_of(&self, n: usize) -> u8 {
        self.answer_for(n).refusal
    }

    /// The first refusal among frames 0 to n.
    fn first_refusal(&self) -> u8 {
        (0..=self.n).map(|n| self.refusal_of(n)).find(|&refusal| refusal != 0).unwrap_or(0)
    }

    /// The refusal of the frame behind an answered one, where it is one of these.
    fn refusal_behind(&self, refusals: &[Refusal]) -> u8 {
        let behind = self.refusal_of(self.n.saturating_add(1));
        if self.right.refusal == 0 && is_one_of(refusals, behind) {
            return behind;
        }
        self.right.refusal
    }

    /// The data of frame n in place of one of these refusals.
    fn unjudged(&self, refusals: &[Refusal]) -> FramePart {
        let so = is_one_of(refusals, self.right.refusal);
        let Some(apart) = self.apart().filter(|_| so) else { return self.right };
        let (place, length) = data(&apart, self.n);
        FramePart { refusal: 0, place, length, heads: self.n + 1 }
    }

    /// The data of another frame where both are answered.
    fn data_of(&self, n: usize) -> FramePart {
        let other = self.answer_for(n);
        instead(self.right, || (other.refusal == 0).then_some(FramePart { heads: self.right.heads, ..other }))
    }

    /// How many bytes are left behind the last frame.
    fn left(&self) -> usize {
        self.apart().map_or(0, |apart| apart.tail.len())
    }

    /// Whether they are fewer than a head has.
    fn few(&self) -> bool {
        self.left() < FRAME_HEAD
    }

    /// Whether frame n would stand behind all that are there.
    fn is_behind_all(&self) -> bool {
        self.apart().is_none_or(|apart| self.n >= apart.frames.len())
    }

    /// The answer of the file with each number 0 made another, where it is that of such a frame.
    fn with_number(&self, such: fn(&Self, usize) -> bool) -> FramePart {
        let mut read = self.file.to_vec();
        while let Some((_, place)) = number_zero(self.settings, &read).filter(|&(n, _)| such(self, n)) {
            read[place] = 1;
        }
        (SECOND.frame_place)(self.settings, &read, self.n)
    }
}

fn is_one_of(refusals: &[Refusal], number: u8) -> bool {
    refusals.iter().any(|&refusal| refusal as u8 == number)
}

/// Place and length of a frame's data.
fn data(apart: &Frames, n: usize) -> (usize, usize) {
    let length = |frame: &Frame| frame.blocks.iter().map(|block| block.len()).sum::<usize>();
    let before: usize = apart.frames[..n].iter().map(|frame| FRAME_HEAD + length(frame)).sum();
    (apart.opening.len() + before + FRAME_HEAD, length(&apart.frames[n]))
}

/// The first frame of number 0 that has a whole head, and the head's place.
fn number_zero(settings: Settings, file: &[u8]) -> Option<(usize, usize)> {
    let apart = Frames::read(settings, file)?;
    let is_zero = apart.end == Some(Refusal::BadMark) && apart.tail.len() >= FRAME_HEAD;
    is_zero.then(|| (apart.frames.len(), file.len() - apart.tail.len()))
}
