//! Runs of elements, handed out one by one: the lines of a description, the blocks of a frame.
//!
//! The library answers "element k", and each call reads the whole trace that it is given. Asked in the caller's file, every element would
//! cost a reading of all of it. What an element is depends on its run alone, so the run is dressed as a small trace and the library
//! is asked there; its answers are moved to the caller's file by a constant. A long run is first halved, again and again,
//! at the start of an element that the library names, so that a run of n bytes costs in the order of n log n however many elements it has.
use std::ops::Range;

/// How one kind of run is dressed and asked.
pub trait Run {
    type Element;

    /// Makes `trace` a trace with `piece` for its run, and answers where the piece stands in it.
    fn dress(&self, piece: &[u8], trace: &mut Vec<u8>) -> usize;

    /// Element k of such a trace.
    fn ask(&self, trace: &[u8], k: usize) -> Option<Self::Element>;

    /// The place of an element's first byte.
    fn start(element: &Self::Element) -> usize;
}

/// A piece of up to this many elements is not halved: most frames have fewer.
const FEW: usize = 8;

/// A piece of a run, by its place in the file, and a bound on the number of its elements.
#[derive(Clone, Debug)]
struct Piece {
    bytes: Range<usize>,
    most: usize,
}

/// The elements of a run of `file`, in order.
#[derive(Clone, Debug)]
pub struct Elements<'a, R> {
    run: R,
    file: &'a [u8],
    /// What is not yet begun, the first piece last.
    pieces: Vec<Piece>,
    /// The piece that is being handed out, dressed; its place in that trace and in the file; its next element.
    trace: Vec<u8>,
    dressed_at: usize,
    stands_at: usize,
    next: usize,
}

impl<'a, R: Run> Elements<'a, R> {
    pub fn new(run: R, file: &'a [u8], bytes: Range<usize>) -> Elements<'a, R> {
        // No element is shorter than one byte.
        let most = bytes.len();
        let pieces = vec![Piece { bytes, most }];
        Elements { run, file, pieces, trace: Vec::new(), dressed_at: 0, stands_at: 0, next: 0 }
    }

    pub fn file(&self) -> &'a [u8] {
        self.file
    }

    /// The place in the file of a place in the dressed piece.
    fn in_file(&self, place: usize) -> usize {
        place - self.dressed_at + self.stands_at
    }

    fn dress(&mut self, piece: &Piece) {
        self.dressed_at = self.run.dress(&self.file[piece.bytes.clone()], &mut self.trace);
        self.stands_at = piece.bytes.start;
        self.next = 0;
    }

    /// Dresses the next piece, cut down to few elements; the rest of it goes back.
    fn begin_piece(&mut self) -> Option<()> {
        let mut piece = self.pieces.pop()?;
        self.dress(&piece);
        while piece.most > FEW && self.run.ask(&self.trace, FEW).is_some() {
            let half = piece.most / 2;
            if let Some(element) = self.run.ask(&self.trace, half) {
                let middle = self.in_file(R::start(&element));
                let bytes = middle..piece.bytes.end;
                self.pieces.push(Piece { bytes, most: piece.most - half });
                piece.bytes.end = middle;
                self.dress(&piece);
            }
            piece.most = half;
        }
        Some(())
    }
}

impl<R: Run> Iterator for Elements<'_, R> {
    /// An element, with the place in the file of its first byte.
    type Item = (R::Element, usize);

    fn next(&mut self) -> Option<Self::Item> {
        loop {
            if !self.trace.is_empty() {
                if let Some(element) = self.run.ask(&self.trace, self.next) {
                    self.next += 1;
                    let place = self.in_file(R::start(&element));
                    return Some((element, place));
                }
                self.trace.clear();
            }
            self.begin_piece()?;
        }
    }
}
