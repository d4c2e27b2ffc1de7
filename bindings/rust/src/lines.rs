//! The lines of a trace's description.
use crate::opening::HEAD;
use crate::raw;
use crate::run::{Elements, Run};
use crate::Settings;
use std::iter::FusedIterator;
use std::ops::Range;

/// What a line of the description starts with, space included.
#[derive(Clone, Copy, Debug, PartialEq, Eq, Hash)]
pub enum LineKind {
    /// None of those below.
    Other,
    /// `R `: the size of a register block.
    R,
    /// `status `
    Status,
    /// `tp `
    Tp,
    /// `tsv `
    Tsv,
    /// `tdesc `
    Tdesc,
}

impl LineKind {
    fn of_number(number: u8) -> LineKind {
        match number {
            1 => LineKind::R,
            2 => LineKind::Status,
            3 => LineKind::Tp,
            4 => LineKind::Tsv,
            5 => LineKind::Tdesc,
            _ => LineKind::Other,
        }
    }
}

/// A line of the description, without its end.
#[derive(Clone, Copy, Debug, PartialEq, Eq)]
pub struct Line<'a> {
    pub kind: LineKind,
    /// Where it starts in the file.
    pub place: usize,
    pub bytes: &'a [u8],
}

impl<'a> Line<'a> {
    /// The line that stands at `place` of the file.
    pub(crate) fn new(line: &raw::Line, place: usize, file: &'a [u8]) -> Line<'a> {
        let kind = LineKind::of_number(line.kind);
        let bytes = &file[place..place + line.length];
        Line { kind, place, bytes }
    }
}

/// The lines of a description, in order; the closing empty line is none. See [`Trace::lines`](crate::Trace::lines).
#[derive(Clone, Debug)]
pub struct Lines<'a>(Elements<'a, LineRun>);

impl<'a> Lines<'a> {
    /// Those of a description that stands at `bytes` of the file, without its closing empty line.
    pub(crate) fn new(settings: Settings, file: &'a [u8], bytes: Range<usize>) -> Lines<'a> {
        Lines(Elements::new(LineRun(settings), file, bytes))
    }
}

impl<'a> Iterator for Lines<'a> {
    type Item = Line<'a>;

    fn next(&mut self) -> Option<Line<'a>> {
        let (line, place) = self.0.next()?;
        Some(Line::new(&line, place, self.0.file()))
    }
}

impl FusedIterator for Lines<'_> {}

/// Lines of which no two are `R ` or `status ` lines are a description: with the head before and an empty line behind they are a trace without frames.
#[derive(Clone, Debug)]
struct LineRun(Settings);

impl Run for LineRun {
    type Element = raw::Line;

    fn dress(&self, piece: &[u8], trace: &mut Vec<u8>) -> usize {
        trace.clear();
        trace.extend_from_slice(HEAD);
        trace.extend_from_slice(piece);
        trace.push(b'\n');
        HEAD.len()
    }

    fn ask(&self, trace: &[u8], k: usize) -> Option<raw::Line> {
        raw::line_place(self.0, trace, k).ok()
    }

    fn start(line: &raw::Line) -> usize {
        line.place
    }
}
