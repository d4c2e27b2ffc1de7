//! The blocks of a trace's frames, read on where the rules stop: behind a second register block, and behind a frame at
//! fault. What files show of second blocks is told by it, and readers with a slip judge by it.

use crate::answers::read;
use crate::c::Settings;
use crate::second::gdb::{LineKind, FRAME_HEAD};
use crate::second::{self, Order, Refusal, MAX_LENGTH};

/// A frame, taken apart.
pub struct Frame<'f> {
    pub head: &'f [u8; FRAME_HEAD],
    /// Each block from its letter to its end; one at fault goes on to the end of the data.
    pub blocks: Vec<&'f [u8]>,
    /// The fault of the last block: 8, 9 or 10.
    fault: Option<Refusal>,
    /// Whether the data run past the file. The blocks are then those of the data that are there.
    past_file: bool,
}

impl Frame<'_> {
    /// Where register blocks stand among its blocks.
    pub fn registers(&self) -> Vec<usize> {
        self.with_letter(b'R').map(|(place, _)| place).collect()
    }

    /// The blocks with this letter, and where they stand among all.
    pub fn with_letter(&self, letter: u8) -> impl Iterator<Item = (usize, &[u8])> {
        self.blocks.iter().copied().enumerate().filter(move |(_, block)| block[0] == letter)
    }

    pub fn has_registers(&self) -> bool {
        !self.registers().is_empty()
    }

    pub fn has_second(&self) -> bool {
        self.registers().len() > 1
    }

    /// Whether its second register block does not fit.
    pub fn has_short_second(&self) -> bool {
        let is_last = self.registers().get(1).is_some_and(|place| place + 1 == self.blocks.len());
        is_last && self.fault == Some(Refusal::BlockPastData)
    }

    pub fn is_past_file(&self) -> bool {
        self.past_file
    }

    /// Its refusal where a frame may have any number of register blocks.
    pub fn fault(&self) -> Option<Refusal> {
        if self.past_file {
            return Some(Refusal::DataPastFile);
        }
        self.fault
    }

    /// Whether it has a fault of any kind.
    pub fn is_refused(&self) -> bool {
        self.has_second() || self.fault().is_some()
    }

    /// What follows the letter at fault, where the fault is this one.
    pub fn behind(&self, fault: Refusal) -> Option<&[u8]> {
        let (_, behind) = self.blocks.last()?.split_first()?;
        Some(behind).filter(|_| self.fault() == Some(fault))
    }
}

/// A trace's opening, its frames, what stands behind them, and the refusal of that, if any.
pub struct Frames<'f> {
    pub opening: &'f [u8],
    pub frames: Vec<Frame<'f>>,
    pub tail: &'f [u8],
    pub end: Option<Refusal>,
}

/// How the blocks are read.
struct Format {
    order: Order,
    register_size: Option<u16>,
}

impl<'f> Frames<'f> {
    /// None where the opening is refused already.
    pub fn read(settings: Settings, file: &'f [u8]) -> Option<Self> {
        let (opening, mut tail) = opened(file)?;
        let format = Format::read(settings, opening)?;
        let mut frames = Vec::new();
        let end = loop {
            match tail {
                [] | [0, 0, 0, 0] => break None,
                [0, 0, ..] => break Some(Refusal::BadMark),
                _ => {}
            }
            let Some((head, data)) = tail.split_first_chunk() else { break Some(Refusal::ShortHead) };
            let size = format.size(head);
            let past_file = size > data.len();
            let (data, behind) = data.split_at(size.min(data.len()));
            let (blocks, fault) = format.blocks(data);
            frames.push(Frame { head, blocks, fault, past_file });
            tail = behind;
        };
        Some(Frames { opening, frames, tail, end })
    }
}

/// A variable's number as its block has it.
pub fn number_bytes(settings: Settings, number: u32) -> [u8; 4] {
    if settings.order == 0 {
        return number.to_le_bytes();
    }
    number.to_be_bytes()
}

/// The opening of a file, up to and with the first empty line, and what follows.
fn opened(file: &[u8]) -> Option<(&[u8], &[u8])> {
    let head_end = file.get(7..).filter(|_| file.len() <= MAX_LENGTH)?;
    let lines = head_end.windows(2).position(|bytes| bytes == b"\n\n")?;
    Some(file.split_at(7 + lines + 2))
}

impl Format {
    fn read(settings: Settings, opening: &[u8]) -> Option<Self> {
        let Settings { order, base } = settings;
        let (order, base) = second::Settings { order, base }.check().ok()?;
        let trace = read(settings, opening).ok()?;
        let line = (0..).map_while(|j| trace.line(j).ok()).find(|line| line.kind == LineKind::R);
        let register_size = line.and_then(|line| base.number(&opening[line.part.place + 2..line.part.end()]));
        Some(Format { order, register_size })
    }

    /// The size that a frame's head says.
    fn size(&self, head: &[u8; FRAME_HEAD]) -> usize {
        let [_, _, size @ ..] = *head;
        self.order.u32(size) as usize
    }

    fn blocks<'f>(&self, mut data: &'f [u8]) -> (Vec<&'f [u8]>, Option<Refusal>) {
        let mut blocks = Vec::new();
        while !data.is_empty() {
            match self.block(data) {
                Ok((block, rest)) => {
                    blocks.push(block);
                    data = rest;
                }
                Err(fault) => {
                    blocks.push(data);
                    return (blocks, Some(fault));
                }
            }
        }
        (blocks, None)
    }

    /// The first block of these data, and what follows it.
    fn block<'f>(&self, data: &'f [u8]) -> Result<(&'f [u8], &'f [u8]), Refusal> {
        let length = match data[0] {
            b'R' => 1 + usize::from(self.register_size.ok_or(Refusal::NoRegisterSize)?),
            b'M' => match data {
                [_, _, _, _, _, _, _, _, _, l0, l1, ..] => 11 + usize::from(self.order.u16([*l0, *l1])),
                _ => return Err(Refusal::BlockPastData),
            },
            b'V' => 13,
            _ => return Err(Refusal::BadLetter),
        };
        data.split_at_checked(length).ok_or(Refusal::BlockPastData)
    }
}
