//! The blocks of a frame.
use crate::opening::HEAD;
use crate::raw;
use crate::run::{Elements, Run};
use crate::{Base, Settings};
use std::iter::FusedIterator;
use std::ops::Range;

/// What a block carries.
#[derive(Clone, Copy, Debug, PartialEq, Eq)]
pub enum Content<'a> {
    /// The bytes of the registers, as many as the R line says. A frame has at most one such block.
    Registers(&'a [u8]),
    /// Memory, from an address on.
    Memory { address: u64, bytes: &'a [u8] },
    /// The value of a trace state variable.
    Variable { number: u32, value: i64 },
}

/// A block of a frame.
#[derive(Clone, Copy, Debug, PartialEq, Eq)]
pub struct Block<'a> {
    /// Where its letter stands in the file.
    pub place: usize,
    pub content: Content<'a>,
}

/// How a frame's blocks are read: nothing else of a trace bears on them.
#[derive(Clone, Copy, Debug)]
pub(crate) struct Manner<'a> {
    pub settings: Settings,
    /// The R line with its end; empty where there is none.
    register_line: &'a [u8],
    /// How many bytes a register block has by that line.
    pub register_size: Option<usize>,
}

/// The tracepoint number of a frame whose blocks are dressed: any but 0 would do, and this one has the same bytes in both orders.
const TRACEPOINT: [u8; 2] = [1, 1];

impl<'a> Manner<'a> {
    /// By the R line of an accepted trace, with its end, or an empty one where there is none.
    pub fn new(settings: Settings, register_line: &'a [u8]) -> Manner<'a> {
        Manner { settings, register_line, register_size: size_of(settings.base, register_line) }
    }

    /// The size of a register block that is there.
    pub fn block_size(&self) -> usize {
        self.register_size.expect("a trace with a register block has an R line")
    }

    /// Makes `trace` a trace of one frame with these blocks, and answers where they stand in it.
    pub fn dress(&self, blocks: &[u8], trace: &mut Vec<u8>) -> usize {
        self.dress_as(TRACEPOINT, blocks, trace)
    }

    /// The same, with these two bytes for the frame's tracepoint number.
    pub fn dress_as(&self, tracepoint: [u8; 2], blocks: &[u8], trace: &mut Vec<u8>) -> usize {
        let size = u32::try_from(blocks.len()).expect("a frame's size has four bytes");
        trace.clear();
        trace.extend_from_slice(HEAD);
        trace.extend_from_slice(self.register_line);
        trace.push(b'\n');
        trace.extend_from_slice(&tracepoint);
        trace.extend_from_slice(&self.settings.order.four_bytes(size));
        let place = trace.len();
        trace.extend_from_slice(blocks);
        place
    }
}

/// The size that an R line says. The library let it through, so that digits of the base alone stand between `R ` and its end.
fn size_of(base: Base, line: &[u8]) -> Option<usize> {
    let digits = line.strip_prefix(b"R ")?.strip_suffix(b"\n")?;
    usize::from_str_radix(std::str::from_utf8(digits).ok()?, base.number().into()).ok()
}

/// The blocks of a frame, in order. See [`Frame::blocks`](crate::Frame::blocks).
#[derive(Clone, Debug)]
pub struct Blocks<'a>(Elements<'a, Manner<'a>>);

impl<'a> Blocks<'a> {
    /// Those that fill `bytes` of the file.
    pub(crate) fn new(manner: Manner<'a>, file: &'a [u8], bytes: Range<usize>) -> Blocks<'a> {
        Blocks(Elements::new(manner, file, bytes))
    }
}

impl<'a> Iterator for Blocks<'a> {
    type Item = Block<'a>;

    fn next(&mut self) -> Option<Block<'a>> {
        let (block, place) = self.0.next()?;
        let content = content_of(&block, &self.0.file()[place..]);
        Some(Block { place, content })
    }
}

impl FusedIterator for Blocks<'_> {}

/// The letter, 8 bytes of address and 2 of length stand before a memory block's bytes.
const MEMORY_HEAD: usize = 11;

/// What a block carries whose letter is the first byte of `bytes`.
fn content_of<'a>(block: &raw::Block, bytes: &'a [u8]) -> Content<'a> {
    match block.letter {
        b'R' => Content::Registers(&bytes[1..1 + block.length]),
        b'M' => {
            let bytes = &bytes[MEMORY_HEAD..MEMORY_HEAD + block.length];
            Content::Memory { address: block.address, bytes }
        }
        _ => Content::Variable { number: block.number, value: block.value },
    }
}

/// A piece of a frame's blocks is a frame's too: like all of them it has at most one `R` block.
impl Run for Manner<'_> {
    type Element = raw::Block;

    fn dress(&self, piece: &[u8], trace: &mut Vec<u8>) -> usize {
        Manner::dress(self, piece, trace)
    }

    /// A register block's record has no length: the R line says it.
    fn ask(&self, trace: &[u8], k: usize) -> Option<raw::Block> {
        let mut block = raw::block_record(self.settings, trace, 0, k).ok()?;
        if block.letter == b'R' {
            block.length = self.block_size();
        }
        Some(block)
    }

    fn start(block: &raw::Block) -> usize {
        block.place
    }
}
