//! What a frame shows of a variable: which of its blocks counts, and what is none of them.

use crate::letters::Frame;
use std::iter;

/// What a frame shows of one.
#[derive(Clone, Copy, Debug, PartialEq, Eq)]
pub enum Variables {
    /// Its only block: the first of several in the frame, the last, between others.
    First,
    Last,
    Between,
    /// Two blocks of unlike values: side by side, and with others between them.
    SideBySide,
    Apart,
    /// Three or more, the latest unlike the first and the one before it.
    Three,
    /// Three or more, the latest like the first, and another value between them.
    Back,
    /// Several of unlike values, and a later block with another number.
    OtherBehind,
    /// Bytes of a later block that are a whole block of it, with another value: of memory, of registers.
    InMemory,
    InRegisters,
    /// Such bytes, and no block of it.
    InBytesAlone,
    /// Asked of a pair: blocks of unlike values in a frame of the first trace, of the second.
    OfFirst,
    OfSecond,
}

impl Variables {
    pub const ALL: [Variables; 13] = [
        Variables::First,
        Variables::Last,
        Variables::Between,
        Variables::SideBySide,
        Variables::Apart,
        Variables::Three,
        Variables::Back,
        Variables::OtherBehind,
        Variables::InMemory,
        Variables::InRegisters,
        Variables::InBytesAlone,
        Variables::OfFirst,
        Variables::OfSecond,
    ];

    /// What a frame shows of the variable that has these bytes as its number.
    pub fn of_frame(frame: &Frame, number: [u8; 4]) -> impl Iterator<Item = Variables> {
        let blocks = blocks_of(frame, number);
        let shown = match &blocks[..] {
            [] => vec![(Variables::InBytesAlone, in_bytes(frame, 0, b"MR", number).next().is_some())],
            [(place, _)] => of_only(*place, frame.blocks.len()),
            _ => of_several(frame, number, &blocks),
        };
        let behind = blocks.last().map_or(Vec::new(), |&latest| of_bytes(frame, number, latest));
        shown.into_iter().chain(behind).filter(|&(_, so)| so).map(|(shown, _)| shown)
    }
}

/// Whether a frame has several blocks of the variable, the first and the last of unlike values.
pub fn has_unlike(frame: &Frame, number: [u8; 4]) -> bool {
    let blocks = blocks_of(frame, number);
    blocks.first().map(|first| first.1) != blocks.last().map(|last| last.1)
}

type Shown = (Variables, bool);

/// The place of each block of the variable among the frame's blocks, and its value's bytes.
fn blocks_of<'f>(frame: &'f Frame, number: [u8; 4]) -> Vec<(usize, &'f [u8])> {
    let own = frame.with_letter(b'V').filter(|(_, block)| block[1..].starts_with(&number));
    own.map(|(place, block)| (place, &block[5..])).collect()
}

fn of_only(place: usize, count: usize) -> Vec<Shown> {
    let (first, last) = (place == 0, place + 1 == count);
    vec![(Variables::First, first && !last), (Variables::Last, last && !first), (Variables::Between, !first && !last)]
}

fn of_several(frame: &Frame, number: [u8; 4], blocks: &[(usize, &[u8])]) -> Vec<Shown> {
    let [.., before, latest] = blocks else { return Vec::new() };
    let (two, unlike) = (blocks.len() == 2, has_unlike(frame, number));
    let other = |(_, block): &(usize, &[u8])| !block[1..].starts_with(&number);
    vec![
        (Variables::SideBySide, two && unlike && latest.0 == before.0 + 1),
        (Variables::Apart, two && unlike && latest.0 > before.0 + 1),
        (Variables::Three, !two && unlike && latest.1 != before.1),
        (Variables::Back, blocks[0].1 == latest.1 && blocks.iter().any(|block| block.1 != latest.1)),
        (Variables::OtherBehind, unlike && frame.with_letter(b'V').filter(other).any(|(place, _)| place > latest.0)),
    ]
}

fn of_bytes(frame: &Frame, number: [u8; 4], (latest, value): (usize, &[u8])) -> Vec<Shown> {
    let unlike = |letter: &[u8]| in_bytes(frame, latest + 1, letter, number).any(|bytes| bytes != value);
    vec![(Variables::InMemory, unlike(b"M")), (Variables::InRegisters, unlike(b"R"))]
}

/// The value in each whole block of the variable that stands in bytes of blocks with these letters, from a place on.
fn in_bytes<'f>(
    frame: &'f Frame,
    from: usize,
    letters: &'f [u8],
    number: [u8; 4],
) -> impl Iterator<Item = &'f [u8]> + 'f {
    let like: Vec<u8> = iter::once(b'V').chain(number).collect();
    let blocks = frame.blocks.iter().skip(from).filter(|block| letters.contains(&block[0]));
    let bytes = blocks.flat_map(|block| block[if block[0] == b'M' { 11 } else { 1 }..].windows(13));
    bytes.filter(move |bytes| bytes.starts_with(&like)).map(|bytes| &bytes[5..])
}
