//! GDB trace files: the check of a whole file, every question about a checked one, and the data of a frame by the parts
//! alone that are read for it.

use super::{Base, Order, Part, Refusal, Settings, MAX_LENGTH};
use std::mem;
use std::num::NonZeroUsize;

const HEAD: &[u8; 8] = b"\x7fTRACE0\n";
const LINE_END: u8 = b'\n';
/// A frame's number and size, ahead of its data.
pub const FRAME_HEAD: usize = 6;
/// A memory block's letter, address and length, ahead of its bytes.
const MEMORY_HEAD: usize = 11;

/// What a line of the description is about.
#[derive(Clone, Copy, Debug, PartialEq, Eq)]
pub enum LineKind {
    Other,
    R,
    Status,
    Tp,
    Tsv,
    Tdesc,
}

impl LineKind {
    fn of(line: &[u8]) -> Self {
        const STARTS: [(&[u8], LineKind); 5] = [
            (b"R ", LineKind::R),
            (b"status ", LineKind::Status),
            (b"tp ", LineKind::Tp),
            (b"tsv ", LineKind::Tsv),
            (b"tdesc ", LineKind::Tdesc),
        ];
        let known = STARTS.iter().find(|(start, _)| line.starts_with(start));
        known.map_or(LineKind::Other, |&(_, kind)| kind)
    }
}

/// A line of the description, without its end.
#[derive(Clone, Copy, Debug, PartialEq, Eq)]
pub struct Line {
    pub kind: LineKind,
    pub part: Part,
}

/// A frame's tracepoint number and the place of its data.
#[derive(Clone, Copy, Debug, PartialEq, Eq)]
pub struct Frame {
    pub tracepoint: u16,
    pub data: Part,
}

impl Frame {
    /// Head and data.
    pub fn whole(self) -> Part {
        Part { place: self.data.place - FRAME_HEAD, length: FRAME_HEAD + self.data.length }
    }
}

/// A frame as the table has it: with the place of its earliest register block's bytes, if it has one. Ahead of them stands the head.
#[derive(Clone, Copy, Debug, PartialEq, Eq)]
pub struct Row {
    pub frame: Frame,
    pub registers: Option<NonZeroUsize>,
}

/// A block of a frame; `place` is its letter's.
#[derive(Clone, Copy, Debug, PartialEq, Eq)]
pub struct Block {
    pub place: usize,
    pub kind: BlockKind,
}

/// What a block holds.
#[derive(Clone, Copy, Debug, PartialEq, Eq)]
pub enum BlockKind {
    Registers { length: u16 },
    Memory { address: u64, length: u16 },
    Variable { number: u32, value: i64 },
}

/// The head and the description.
#[derive(Clone, Copy)]
struct Opening {
    length: usize,
    register_size: Option<u16>,
}

impl Opening {
    /// Each part is told as it is read: the head, then line by line.
    fn read(base: Base, file: &[u8], tell: &mut impl FnMut(Part)) -> Result<Self, Refusal> {
        tell(up_to(HEAD.len(), 0, file));
        if !file.starts_with(HEAD) {
            return Err(Refusal::BadHead);
        }
        let mut place = HEAD.len();
        let mut register_size = None;
        let mut has_status = false;
        loop {
            let rest = &file[place..];
            let end = rest.iter().position(|&byte| byte == LINE_END);
            tell(Part { place, length: end.map_or(rest.len(), |end| end + 1) });
            let length = end.ok_or(Refusal::NoEmptyLine)?;
            let line = &rest[..length];
            place += length + 1;
            if line.is_empty() {
                return Ok(Opening { length: place, register_size });
            }
            let repeated = match LineKind::of(line) {
                LineKind::R => register_size.replace(base.number(&line[2..]).ok_or(Refusal::BadLine)?).is_some(),
                LineKind::Status => mem::replace(&mut has_status, true),
                _ => false,
            };
            if repeated {
                return Err(Refusal::BadLine);
            }
        }
    }
}

/// A trace that follows the layout.
#[derive(Clone, Copy)]
pub struct Trace<'a> {
    file: &'a [u8],
    order: Order,
    opening: Opening,
    frame_count: usize,
    /// Where the last frame ends; what is left of the file is nothing or the end mark.
    frames_end: usize,
}

impl<'a> Trace<'a> {
    /// Checks the whole file; the first fault met decides.
    pub fn read(settings: Settings, file: &'a [u8]) -> Result<Self, Refusal> {
        let mut trace = Trace::open(settings, file, &mut |_| ())?;
        (trace.frame_count, trace.frames_end) = trace.check_frames()?;
        Ok(trace)
    }

    /// The file read as far as its opening, each part told as it is read; none of its frames is counted.
    fn open(settings: Settings, file: &'a [u8], tell: &mut impl FnMut(Part)) -> Result<Self, Refusal> {
        let (order, base) = settings.check()?;
        if file.len() > MAX_LENGTH {
            return Err(Refusal::TooLong);
        }
        let opening = Opening::read(base, file, tell)?;
        Ok(Trace { file, order, opening, frame_count: 0, frames_end: opening.length })
    }

    /// How many frames there are, and where the last one ends.
    fn check_frames(&self) -> Result<(usize, usize), Refusal> {
        let (mut count, mut end) = (0, self.opening.length);
        for frame in self.walk_frames() {
            let frame = frame?;
            self.check_blocks(frame)?;
            count += 1;
            end = frame.data.end();
        }
        Ok((count, end))
    }

    fn check_blocks(&self, frame: Frame) -> Result<(), Refusal> {
        self.walk_blocks(frame).try_for_each(|block| block.map(drop))
    }

    fn walk_frames(&self) -> Frames<'a> {
        Frames { file: self.file, order: self.order, place: self.opening.length }
    }

    fn walk_blocks(&self, frame: Frame) -> Blocks<'a> {
        let end = frame.data.end();
        let rest = &self.file[frame.data.place..end];
        Blocks { order: self.order, register_size: self.opening.register_size, has_registers: false, rest, end }
    }

    /// Head and description, with the closing empty line.
    pub fn opening(&self) -> &'a [u8] {
        &self.file[..self.opening.length]
    }

    /// Every frame's head and data, one after the other.
    pub fn frame_bytes(&self) -> &'a [u8] {
        &self.file[self.opening.length..self.frames_end]
    }

    /// The bytes of the end mark, none where the trace has no mark.
    pub fn mark(&self) -> &'a [u8] {
        &self.file[self.frames_end..]
    }

    pub fn is_marked(&self) -> bool {
        !self.mark().is_empty()
    }

    pub fn frame_count(&self) -> usize {
        self.frame_count
    }

    pub fn frames(&self) -> impl Iterator<Item = Frame> + 'a {
        self.walk_frames().map_while(Result::ok)
    }

    /// Fills one record per frame and tells how many there are.
    pub fn frame_table(&self, rows: &mut [Row]) -> Result<usize, Refusal> {
        let rows = rows.get_mut(..self.frame_count).ok_or(Refusal::NoRoom)?;
        for (row, frame) in rows.iter_mut().zip(self.frames()) {
            let registers = self.registers_in(frame).and_then(|part| NonZeroUsize::new(part.place));
            *row = Row { frame, registers };
        }
        Ok(self.frame_count)
    }

    /// Line j of the description, the closing empty one not counted.
    pub fn line(&self, j: usize) -> Result<Line, Refusal> {
        let mut place = HEAD.len();
        let lines = self.file[place..self.opening.length - 1].split_inclusive(|&byte| byte == LINE_END);
        for (index, line) in lines.enumerate() {
            if index == j {
                let part = Part { place, length: line.len() - 1 };
                return Ok(Line { kind: LineKind::of(line), part });
            }
            place += line.len();
        }
        Err(Refusal::NotFound)
    }

    pub fn frame(&self, n: usize) -> Result<Frame, Refusal> {
        self.frames().nth(n).ok_or(Refusal::NotFound)
    }

    fn blocks(&self, n: usize) -> Result<impl Iterator<Item = Block> + 'a, Refusal> {
        Ok(self.blocks_of(self.frame(n)?))
    }

    fn blocks_of(&self, frame: Frame) -> impl Iterator<Item = Block> + 'a {
        self.walk_blocks(frame).map_while(Result::ok)
    }

    /// Block k of frame n.
    pub fn block(&self, n: usize, k: usize) -> Result<Block, Refusal> {
        self.blocks(n)?.nth(k).ok_or(Refusal::NotFound)
    }

    /// The bytes of frame n's earliest register block.
    pub fn registers(&self, n: usize) -> Result<Part, Refusal> {
        self.registers_in(self.frame(n)?).ok_or(Refusal::NotFound)
    }

    fn registers_in(&self, frame: Frame) -> Option<Part> {
        self.blocks_of(frame).find_map(|block| match block.kind {
            BlockKind::Registers { length } => Some(Part { place: block.place + 1, length: length.into() }),
            _ => None,
        })
    }

    /// Memory at an address in frame n, to the end of the earliest block that covers it.
    pub fn memory(&self, n: usize, address: u64) -> Result<Part, Refusal> {
        let found = self.blocks(n)?.find_map(|block| match block.kind {
            BlockKind::Memory { address: start, length } => {
                let offset = u16::try_from(address.wrapping_sub(start)).ok()?;
                let left = length.checked_sub(offset).filter(|&left| left > 0)?;
                let place = block.place + MEMORY_HEAD + usize::from(offset);
                Some(Part { place, length: left.into() })
            }
            _ => None,
        });
        found.ok_or(Refusal::NotFound)
    }

    /// The value in frame n's latest variable block with this number.
    pub fn variable(&self, n: usize, wanted: u32) -> Result<i64, Refusal> {
        let values = self.blocks(n)?.filter_map(|block| match block.kind {
            BlockKind::Variable { number, value } if number == wanted => Some(value),
            _ => None,
        });
        values.last().ok_or(Refusal::NotFound)
    }
}

/// The data of frame n and the number of heads read for it. Of the file only these parts are read, each told as it is
/// read: the opening, the heads of frames 0 to n, or up to six bytes where one should start, and the data of frame n.
pub fn frame_part(
    settings: Settings,
    file: &[u8],
    n: usize,
    mut tell: impl FnMut(Part),
) -> Result<(Part, usize), Refusal> {
    let trace = Trace::open(settings, file, &mut tell)?;
    let mut frames = trace.walk_frames();
    let mut heads = 0;
    loop {
        tell(up_to(FRAME_HEAD, frames.place, file));
        let frame = frames.next().ok_or(Refusal::NotFound)??;
        heads += 1;
        if heads > n {
            tell(frame.data);
            trace.check_blocks(frame)?;
            return Ok((frame.data, heads));
        }
    }
}

/// As many bytes from a place on, or those that are left of the file.
fn up_to(count: usize, place: usize, file: &[u8]) -> Part {
    Part { place, length: count.min(file.len() - place) }
}

/// The frames from a place on, up to the end mark, the file's end or the first fault.
struct Frames<'a> {
    file: &'a [u8],
    order: Order,
    place: usize,
}

impl Frames<'_> {
    fn step(&mut self, rest: &[u8]) -> Result<Frame, Refusal> {
        let (head, data) = rest.split_first_chunk::<FRAME_HEAD>().ok_or(Refusal::ShortHead)?;
        let &[t0, t1, s0, s1, s2, s3] = head;
        let size = self.order.u32([s0, s1, s2, s3]) as usize;
        if size > data.len() {
            return Err(Refusal::DataPastFile);
        }
        let data = Part { place: self.place + FRAME_HEAD, length: size };
        self.place = data.end();
        Ok(Frame { tracepoint: self.order.u16([t0, t1]), data })
    }
}

impl Iterator for Frames<'_> {
    type Item = Result<Frame, Refusal>;

    fn next(&mut self) -> Option<Self::Item> {
        match &self.file[self.place..] {
            [] | [0, 0, 0, 0] => None,
            // No frame has tracepoint number 0: it begins the end mark, and that is four bytes up to the file's end.
            [0, 0, ..] => Some(Err(Refusal::BadMark)),
            rest => Some(self.step(rest)),
        }
    }
}

/// The blocks of a frame, up to the first fault; `rest` is what remains of its data, `end` where the data end.
struct Blocks<'a> {
    order: Order,
    register_size: Option<u16>,
    /// Whether a register block of this frame was met.
    has_registers: bool,
    rest: &'a [u8],
    end: usize,
}

impl<'a> Blocks<'a> {
    /// The block with this letter, and what follows it.
    fn step(&mut self, letter: u8, after: &'a [u8]) -> Result<(BlockKind, &'a [u8]), Refusal> {
        let block = match letter {
            // The letter alone makes a second block, whether or not it fits.
            b'R' if self.has_registers => return Err(Refusal::SecondRegisters),
            b'R' => {
                self.has_registers = true;
                registers(self.register_size.ok_or(Refusal::NoRegisterSize)?, after)
            }
            b'M' => memory(self.order, after),
            b'V' => variable(self.order, after),
            _ => return Err(Refusal::BadLetter),
        };
        block.ok_or(Refusal::BlockPastData)
    }
}

impl Iterator for Blocks<'_> {
    type Item = Result<Block, Refusal>;

    fn next(&mut self) -> Option<Self::Item> {
        let (&letter, after) = self.rest.split_first()?;
        let place = self.end - self.rest.len();
        Some(self.step(letter, after).map(|(kind, rest)| {
            self.rest = rest;
            Block { place, kind }
        }))
    }
}

fn registers(length: u16, after: &[u8]) -> Option<(BlockKind, &[u8])> {
    Some((BlockKind::Registers { length }, after.get(length.into()..)?))
}

fn memory(order: Order, after: &[u8]) -> Option<(BlockKind, &[u8])> {
    let (address, after) = after.split_first_chunk()?;
    let (length, after) = after.split_first_chunk()?;
    let length = order.u16(*length);
    let kind = BlockKind::Memory { address: order.u64(*address), length };
    Some((kind, after.get(length.into()..)?))
}

fn variable(order: Order, after: &[u8]) -> Option<(BlockKind, &[u8])> {
    let (number, after) = after.split_first_chunk()?;
    let (value, after) = after.split_first_chunk()?;
    // Two's complement: the same 64 bits, taken as signed.
    let value = order.u64(*value) as i64;
    Some((BlockKind::Variable { number: order.u32(*number), value }, after))
}
