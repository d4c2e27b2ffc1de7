//! Valid GDB traces, kept as lines, frames and blocks until they are written out.

use super::{put, Random};
use crate::c::Settings;

pub const HEAD: &[u8] = b"\x7fTRACE0\n";
pub const END_MARK: &[u8] = &[0; 4];

/// A frame of written blocks. `size` is what its head says where that is not the truth.
#[derive(Clone)]
pub struct Frame {
    pub tracepoint: u16,
    pub blocks: Vec<Vec<u8>>,
    pub size: Option<u32>,
}

impl Frame {
    /// A frame of these blocks, with a number that begins no end mark.
    pub fn of(blocks: Vec<Vec<u8>>) -> Self {
        Frame { tracepoint: 1, blocks, size: None }
    }

    pub fn data(&self) -> Vec<u8> {
        self.blocks.concat()
    }

    /// Takes its register block away, if it has one.
    pub fn drop_registers(&mut self) {
        self.blocks.retain(|block| !is_registers(block));
    }
}

fn is_registers(block: &[u8]) -> bool {
    block.starts_with(b"R")
}

/// A trace; `register_size` is its R line's number, and `marked` says whether the end mark stands behind the frames.
#[derive(Clone)]
pub struct Trace {
    pub settings: Settings,
    pub lines: Vec<Vec<u8>>,
    pub register_size: Option<usize>,
    pub frames: Vec<Frame>,
    pub marked: bool,
}

impl Trace {
    /// A trace without lines, frames and mark.
    pub fn bare(settings: Settings) -> Self {
        Trace { settings, lines: Vec::new(), register_size: None, frames: Vec::new(), marked: false }
    }

    /// A trace of every sort, R line or none, marked or not.
    pub fn valid(random: &mut Random, settings: Settings) -> Self {
        let size = random.pick(&[0, 1, 2, 3, 8, 10, 12, 16, 29, 40, 171, 206, 264]);
        let size = if random.one_in(500) { random.pick(&[776, 65_535]) } else { size };
        let has_line = !random.one_in(4);
        Trace::with(random, settings, has_line.then_some(size))
    }

    pub fn with(random: &mut Random, settings: Settings, register_size: Option<usize>) -> Self {
        let lines = description(random, settings.base, register_size);
        let frames = frames(random, settings.order, register_size);
        Trace { settings, lines, register_size, frames, marked: random.one_in(2) }
    }

    /// A trace with at least one frame.
    pub fn with_frames(random: &mut Random, settings: Settings, register_size: Option<usize>) -> Self {
        let mut trace = Trace::with(random, settings, register_size);
        if trace.frames.is_empty() {
            trace.frames.push(frame(random, settings.order, register_size));
        }
        trace
    }

    /// The same opening with other frames, marked or not.
    pub fn sibling(&self, random: &mut Random) -> Self {
        let frames = frames(random, self.settings.order, self.register_size);
        Trace { frames, marked: random.one_in(2), ..self.clone() }
    }

    /// Spells the R line's number otherwise: its letters in the other case, or else with a zero more or less before it.
    pub fn respell(&mut self) {
        let Some(line) = self.lines.iter_mut().find(|line| line.starts_with(b"R ")) else { return };
        let digits = &mut line[2..];
        if digits.iter().any(u8::is_ascii_alphabetic) {
            digits.iter_mut().filter(|digit| digit.is_ascii_alphabetic()).for_each(|digit| *digit ^= b'a' ^ b'A');
        } else if digits.len() > 1 && digits[0] == b'0' {
            line.remove(2);
        } else {
            line.insert(2, b'0');
        }
    }

    /// Head and lines, without the closing empty line.
    pub fn unclosed(&self) -> Vec<u8> {
        let mut bytes = HEAD.to_vec();
        for line in &self.lines {
            bytes.extend_from_slice(line);
            bytes.push(b'\n');
        }
        bytes
    }

    pub fn opening(&self) -> Vec<u8> {
        let mut bytes = self.unclosed();
        bytes.push(b'\n');
        bytes
    }

    pub fn bytes(&self) -> Vec<u8> {
        let mut bytes = self.opening();
        for frame in &self.frames {
            let data = frame.data();
            put(&mut bytes, self.settings.order, 2, frame.tracepoint.into());
            put(&mut bytes, self.settings.order, 4, frame.size.map_or(data.len() as u64, u64::from));
            bytes.extend_from_slice(&data);
        }
        bytes.extend_from_slice(self.mark());
        bytes
    }

    /// What stands behind the frames.
    pub fn mark(&self) -> &'static [u8] {
        if self.marked {
            END_MARK
        } else {
            &[]
        }
    }
}

fn description(random: &mut Random, base: u8, register_size: Option<usize>) -> Vec<Vec<u8>> {
    let mut lines: Vec<_> = (0..random.below(5)).map(|_| line(random)).collect();
    if random.one_in(2) {
        let place = random.below(lines.len() + 1);
        lines.insert(place, [b"status ", &text(random)[..]].concat());
    }
    if let Some(size) = register_size {
        let place = random.below(lines.len() + 1);
        lines.insert(place, register_line(random, base, size));
    }
    lines
}

/// An R line, with leading zeros where there is room for them, and letters of either case or of both.
pub fn register_line(random: &mut Random, base: u8, size: usize) -> Vec<u8> {
    if base == 10 {
        let width = random.pick(&[1, 1, 1, 4, 5]);
        return format!("R {size:0width$}").into_bytes();
    }
    let width = random.pick(&[1, 1, 1, 3, 4]);
    let mut digits = format!("{size:0width$x}").into_bytes();
    // Every letter, none, or every other one from the first or from the second place on.
    let (first, step) = random.pick(&[(0, 1), (digits.len(), 1), (0, 2), (1, 2)]);
    digits.iter_mut().skip(first).step_by(step).for_each(|digit| digit.make_ascii_uppercase());
    [b"R ", &digits[..]].concat()
}

/// A line that may stand any number of times.
fn line(random: &mut Random) -> Vec<u8> {
    const OTHERS: [&[u8]; 16] = [
        b"R8",
        b"R",
        b"r 8",
        b"R\t8",
        b"R8 8",
        b" R 8",
        b"RR 5",
        b"tp",
        b"tsv",
        b"tdesc",
        b"status",
        b"Status 1",
        b"\r",
        b"\0",
        b" ",
        b"M",
    ];
    match random.below(5) {
        0 => [b"tp ", &text(random)[..]].concat(),
        1 => [b"tsv ", &text(random)[..]].concat(),
        2 => [b"tdesc ", &text(random)[..]].concat(),
        3 => random.pick(&OTHERS).to_vec(),
        _ => [b"x", &text(random)[..]].concat(),
    }
}

/// Any bytes but a line's end.
pub fn text(random: &mut Random) -> Vec<u8> {
    let length = random.below(12);
    let length = if random.one_in(100) { 40 * length } else { length };
    let mut text = random.bytes(length);
    text.retain(|&byte| byte != b'\n');
    text
}

fn frames(random: &mut Random, order: u8, register_size: Option<usize>) -> Vec<Frame> {
    let count = random.pick(&[0, 1, 1, 2, 2, 3, 3, 4, 5, 7]);
    let count = if random.one_in(100) { 40 } else { count };
    (0..count).map(|_| frame(random, order, register_size)).collect()
}

/// A frame of blocks of every kind, of which at most one is a register block.
pub fn frame(random: &mut Random, order: u8, register_size: Option<usize>) -> Frame {
    let count = random.pick(&[0, 1, 1, 2, 2, 3, 4, 5]);
    let mut blocks: Vec<Vec<u8>> = Vec::new();
    while blocks.len() < count {
        let has_registers = blocks.iter().any(|block| is_registers(block));
        blocks.push(block(random, order, register_size.filter(|_| !has_registers)));
    }
    Frame { tracepoint: tracepoint(random), blocks, size: None }
}

/// A frame's number, of any size but not 0; a few often, so that frames of one number repeat. One byte of 256 is 0, as
/// of 1 in the other order.
pub fn tracepoint(random: &mut Random) -> u16 {
    if random.one_in(8) {
        return (random.number() as u16).max(1);
    }
    random.pick(&[1, 1, 1, 2, 2, 3, 4, 255, 256, 256, 257, 32_767, 32_768, 65_534, 65_535])
}

pub fn block(random: &mut Random, order: u8, register_size: Option<usize>) -> Vec<u8> {
    match (random.below(5), register_size) {
        (0 | 1, Some(size)) => registers(random, size),
        (0 | 2 | 3, _) => memory(random, order),
        _ => variable(random, order),
    }
}

pub fn registers(random: &mut Random, size: usize) -> Vec<u8> {
    [b"R", &random.bytes(size)[..]].concat()
}

/// A memory block: often one of a few addresses, some at the top of the address space, so that blocks overlap and wrap.
pub fn memory(random: &mut Random, order: u8) -> Vec<u8> {
    let near = random.below(8) as u64;
    let address = match random.below(6) {
        0 => near,
        1 | 2 => u64::MAX - near,
        3 => 0x40_0000 + near,
        4 => (1 << 63) - 4 + near,
        _ => random.number(),
    };
    let length = random.pick(&[0, 1, 2, 3, 4, 8, 16, 33]);
    let length = if random.one_in(200) { 300 } else { length };
    let bytes = random.bytes(length);
    memory_at(order, address, &bytes)
}

pub fn memory_at(order: u8, address: u64, bytes: &[u8]) -> Vec<u8> {
    let mut block = vec![b'M'];
    put(&mut block, order, 8, address);
    put(&mut block, order, 2, bytes.len() as u64);
    block.extend_from_slice(bytes);
    block
}

pub fn variable(random: &mut Random, order: u8) -> Vec<u8> {
    let number = random.pick(&[0, 1, 1, 2, 3, 0x4D4D_4D4D, 1 << 31, u32::MAX]);
    variable_of(random, order, number)
}

pub fn variable_of(random: &mut Random, order: u8, number: u32) -> Vec<u8> {
    let value = match random.below(4) {
        0 => random.pick(&[0, 1, -1, -2, i64::MIN, i64::MAX]),
        1 => random.below(1_000) as i64 - 500,
        _ => random.number() as i64,
    };
    let mut block = vec![b'V'];
    put(&mut block, order, 4, number.into());
    put(&mut block, order, 8, value as u64);
    block
}
