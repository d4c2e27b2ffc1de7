//! The data of a frame go by the parts of the file that are read for them, and by the file's length: whatever else
//! stands in the file, the answer is the same. The second reader tells the parts; every byte outside them is changed.

use std::ops::Range;
use tufakpeni_tests::answers::{parts_read, Answer, SECOND};
use tufakpeni_tests::c::{FramePart, Settings};
use tufakpeni_tests::letters::Frames;
use tufakpeni_tests::library::LIBRARY;
use tufakpeni_tests::make::{any_trace, settings, Random};
use tufakpeni_tests::reader::Reader;
use tufakpeni_tests::run::{files, seed};
use tufakpeni_tests::second::{Part, Refusal};

/// A question about frame n of a file, its answer, and the parts and so the bytes that are read for it.
struct Asked<'f> {
    reader: &'f Reader,
    settings: Settings,
    file: &'f [u8],
    n: usize,
    answer: FramePart,
    parts: Vec<Part>,
    is_read: Vec<bool>,
}

impl<'f> Asked<'f> {
    fn new(reader: &'f Reader, settings: Settings, file: &'f [u8], n: usize) -> Self {
        let parts = parts_read(settings, file, n);
        let mut is_read = vec![false; file.len()];
        for part in &parts {
            is_read[part.place..part.end()].fill(true);
        }
        Asked { reader, settings, file, n, answer: (reader.frame_place)(settings, file, n), parts, is_read }
    }

    /// The places among these that are read, or that are not.
    fn places(&self, among: Range<usize>, read: bool) -> impl DoubleEndedIterator<Item = usize> + '_ {
        among.filter(move |&place| self.is_read[place] == read)
    }

    /// Where the last byte that is read ends.
    fn end(&self) -> usize {
        self.places(0..self.file.len(), true).next_back().map_or(0, |last| last + 1)
    }

    /// The file with every byte that is not read changed.
    fn with_others_changed(&self, mut change: impl FnMut() -> u8) -> Vec<u8> {
        let mut changed = self.file.to_vec();
        self.places(0..self.file.len(), false).for_each(|place| changed[place] ^= change());
        changed
    }

    fn answers_the_same(&self, file: &[u8]) -> bool {
        (self.reader.frame_place)(self.settings, file, self.n) == self.answer
    }

    /// Whether another file has the same answer by the same parts.
    fn stays(&self, file: &[u8]) -> bool {
        self.answers_the_same(file) && parts_read(self.settings, file, self.n) == self.parts
    }

    /// Whether the answer changes with any one of the bytes that are read among these; None where there is none.
    fn changes_with_one(&self, random: &mut Random, among: Range<usize>) -> Option<bool> {
        let read: Vec<_> = self.places(among, true).collect();
        let place = *read.get(random.below(read.len().max(1)))?;
        let mut changed = self.file.to_vec();
        changed[place] ^= other(random);
        Some(!self.answers_the_same(&changed))
    }
}

/// What makes a byte another.
fn other(random: &mut Random) -> u8 {
    1 + random.byte() % 255
}

/// How many questions there were of a sort, and of how many this is so.
#[derive(Default, Debug)]
struct Share {
    so: usize,
    of: usize,
}

impl Share {
    fn count(&mut self, so: Option<bool>) {
        self.of += usize::from(so.is_some());
        self.so += usize::from(so == Some(true));
    }
}

/// What the questions met.
#[derive(Default, Debug)]
struct Tally {
    answered: Share,
    /// The bytes that are not read: ahead of the last one that is, and behind it.
    ahead: usize,
    behind: usize,
    /// Answers that change with a byte that is read, in the opening and behind it.
    by_opening: Share,
    by_frames: Share,
    /// Whole readings that change with the bytes that are not read.
    whole: Share,
}

impl Tally {
    /// Counts a question about a file with an opening of this length; an error where its answer does not stay.
    fn count(&mut self, random: &mut Random, asked: &Asked, opening: usize) -> Result<(), String> {
        let Asked { reader, settings, file, n, .. } = *asked;
        let flipped = asked.with_others_changed(|| 0xFF);
        let changed = asked.with_others_changed(|| other(random));
        if !asked.stays(&flipped) || !asked.stays(&changed) {
            return Err(format!("frame {n}: {settings:?}, {file:02x?}"));
        }
        let (end, length) = (asked.end(), file.len());
        self.answered.count(Some(asked.answer.refusal == 0));
        self.ahead += asked.places(0..end, false).count();
        self.behind += length - end;
        self.by_opening.count(asked.changes_with_one(random, 0..opening));
        self.by_frames.count(asked.changes_with_one(random, opening..length));
        let [before, after] = [file, &changed].map(|file| (reader.frame_count)(settings, file));
        self.whole.count(Some(before != after));
        Ok(())
    }
}

/// Asks for some frames of a made file: such as are there, and such as are past them.
fn ask(reader: &Reader, random: &mut Random, tally: &mut Tally) -> Result<(), String> {
    let trace = any_trace(random);
    let settings = if random.one_in(20) { settings::wrong(random) } else { trace.settings };
    let file = trace.made.file();
    let apart = Frames::read(settings, file);
    let opening = apart.as_ref().map_or(file.len(), |apart| apart.opening.len());
    let heads = apart.map_or(0, |apart| apart.frames.len());
    let inside = random.below(heads.max(1));
    for n in [0, inside, heads.saturating_sub(1), heads, random.pick(&[heads + 1, 1 << 63, usize::MAX])] {
        tally.count(random, &Asked::new(reader, settings, file, n), opening)?;
    }
    Ok(())
}

/// What a run over so many made files met, or the first file and frame whose answer does not stay.
fn run(reader: &Reader, files: usize) -> Result<Tally, String> {
    let mut tally = Tally::default();
    for index in 0..files {
        let asked = ask(reader, &mut Random::of(seed(), index), &mut tally);
        asked.map_err(|told| format!("seed {}, file {index}, {told}", seed()))?;
    }
    Ok(tally)
}

#[test]
fn unread_bytes_change_nothing() {
    let files = files() / 4;
    for (name, reader) in [("second reader", &SECOND), ("library", &LIBRARY)] {
        let tally = run(reader, files).unwrap_or_else(|told| panic!("{name}: {told}"));
        println!("unread bytes, {name}: seed {}, {files} files, {tally:?}", seed());
        let Tally { answered, ahead, behind, by_opening, by_frames, whole } = tally;
        // Both of them for each file.
        assert!(answered.so > files && answered.of - answered.so > files);
        assert!(ahead > 10 * files && behind > 10 * files);
        for Share { so, of } in [by_opening, by_frames, whole] {
            assert!(of > files && so > of / 4);
        }
    }
}

/// The whole file ahead of the frame, the blocks of earlier frames, the byte behind the frame.
const READERS_OF_MORE: [Reader; 3] = [
    Reader {
        frame_place: |settings, file, n| match (SECOND.frame_count)(settings, file).refusal {
            0 => (SECOND.frame_place)(settings, file, n),
            refusal => FramePart::refused(refusal),
        },
        ..SECOND
    },
    Reader {
        frame_place: |settings, file, n| {
            let answer = |n| (SECOND.frame_place)(settings, file, n);
            (0..=n).map(answer).find(|answer| answer.refusal != 0).unwrap_or_else(|| answer(n))
        },
        ..SECOND
    },
    Reader {
        frame_place: |settings, file, n| {
            let answer = (SECOND.frame_place)(settings, file, n);
            match file.get(answer.place + answer.length) {
                Some(0) if answer.refusal == 0 => FramePart::refused(Refusal::BadMark as u8),
                _ => answer,
            }
        },
        ..SECOND
    },
];

/// That the run can fail.
#[test]
fn readers_of_more_are_seen() {
    for reader in &READERS_OF_MORE {
        assert!(run(reader, 100).is_err());
    }
}
