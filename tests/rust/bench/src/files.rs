//! The files that are read: large, sound, and the same in every run.
use std::iter::repeat_n;
use tufakpeni_tests::make::gdb::END_MARK;

/// The longest file that is read.
pub const LONGEST: usize = 64 << 20;

/// Writes numbers in one byte order.
pub struct Writer {
    pub bytes: Vec<u8>,
    pub big: bool,
}

impl Writer {
    pub fn new(big: bool, start: &[u8]) -> Writer {
        let mut bytes = Vec::with_capacity(LONGEST);
        bytes.extend_from_slice(start);
        Writer { bytes, big }
    }

    /// The low `width` bytes of a number.
    pub fn number(&mut self, width: usize, n: u64) {
        if self.big {
            self.bytes.extend_from_slice(&n.to_be_bytes()[8 - width..]);
        } else {
            self.bytes.extend_from_slice(&n.to_le_bytes()[..width]);
        }
    }

    pub fn text(&mut self, text: &[u8]) {
        self.bytes.extend_from_slice(text);
    }

    pub fn fill(&mut self, byte: u8, count: usize) {
        self.bytes.extend(repeat_n(byte, count));
    }
}

/// What each frame of a trace holds.
#[derive(Clone, Copy)]
pub enum Frames {
    /// 776 bytes of registers and a variable: 796 bytes with the head.
    Registers,
    /// Two bytes of registers, then four times a variable, 8 bytes of memory and a variable: 13 blocks in 189 bytes.
    Small,
    /// Four memory blocks of 16 bytes: 114 bytes.
    Memory,
    /// A variable: 19 bytes.
    Variable,
    /// A variable, 8 bytes of memory and a variable, as often as there is room: one frame.
    Long,
}

/// The address of a frame's last memory block.
pub const LAST_ADDRESS: u64 = 0x3000;

impl Frames {
    /// The size of a register block by the R line.
    fn register_size(self) -> usize {
        match self {
            Frames::Small => 2,
            _ => 776,
        }
    }

    /// The blocks of a frame, of `most` bytes at most where it is a long one.
    fn blocks(self, file: &mut Writer, most: usize) {
        let addresses = (0..=LAST_ADDRESS).step_by(0x1000);
        match self {
            Frames::Registers => {
                self.registers(file);
                variable(file);
            }
            Frames::Small => {
                self.registers(file);
                addresses.for_each(|address| step(file, address));
            }
            Frames::Memory => addresses.for_each(|address| memory(file, address, 16)),
            Frames::Variable => variable(file),
            Frames::Long => {
                while file.bytes.len() + STEP <= most {
                    step(file, LAST_ADDRESS);
                }
            }
        }
    }

    fn registers(self, file: &mut Writer) {
        file.text(b"R");
        // Register bytes look like a block's letter, as the rules warn.
        file.fill(b'M', self.register_size());
    }
}

/// A variable before and after a step, and the memory that it writes: so many bytes.
fn step(file: &mut Writer, address: u64) {
    variable(file);
    memory(file, address, 8);
    variable(file);
}

const STEP: usize = 13 + 19 + 13;

fn memory(file: &mut Writer, address: u64, size: usize) {
    file.text(b"M");
    file.number(8, address);
    file.number(2, size as u64);
    file.fill(7, size);
}

fn variable(file: &mut Writer) {
    file.text(b"V");
    file.number(4, 1);
    file.number(8, u64::MAX);
}

/// Tracepoint numbers go from 1 to this in turn.
pub const NUMBERS: u64 = 8;

/// A trace of as many frames as `length` bytes hold, and the end mark where it has one.
pub fn trace(frames: Frames, marked: bool, big: bool, length: usize) -> Vec<u8> {
    let mark = if marked { END_MARK } else { &[] };
    // The registers' size as debuggers write it, in base 16.
    let size = frames.register_size();
    let opening = format!("\x7fTRACE0\nR {size:x}\nstatus 0;tstop::0\ntp T1:400580:E:0:0\n\n");
    let mut data = Writer { bytes: Vec::new(), big };
    frames.blocks(&mut data, length - opening.len() - 6 - mark.len());
    let data = data.bytes;
    let mut file = Writer::new(big, opening.as_bytes());
    for number in (1..=NUMBERS).cycle() {
        if file.bytes.len() + 6 + data.len() + mark.len() > length {
            break;
        }
        file.number(2, number);
        file.number(4, data.len() as u64);
        file.text(&data);
    }
    file.text(mark);
    file.bytes
}

/// How large the parts of a trace.dat file are.
pub struct Sizes {
    pub systems: usize,
    pub events: usize,
    pub format: usize,
    pub kallsyms: usize,
    pub cpus: usize,
    /// CPU i has the data area that stands at i times this number; 1 leaves the areas in order.
    pub stride: usize,
}

pub const PAGE: usize = 4096;

/// A trace.dat file of 64 MiB: its header, and an area of pages for each CPU as far as there is room.
pub fn dat(sizes: &Sizes, big: bool) -> Vec<u8> {
    let mut file = Writer::new(big, b"\x17\x08\x44tracing6\0");
    file.text(&[u8::from(big), 8]);
    file.number(4, PAGE as u64);
    sections(&mut file, sizes);
    file.number(4, sizes.cpus as u64);
    file.text(b"flyrecord\0");
    let start = (file.bytes.len() + 16 * sizes.cpus).next_multiple_of(PAGE);
    let each = (LONGEST - start) / sizes.cpus / PAGE * PAGE;
    for cpu in 0..sizes.cpus {
        let area = cpu * sizes.stride % sizes.cpus;
        file.number(8, (start + area * each) as u64);
        file.number(8, each as u64);
    }
    file.bytes.resize(LONGEST, 0);
    file.bytes
}

fn sections(file: &mut Writer, sizes: &Sizes) {
    for name in [&b"header_page\0"[..], b"header_event\0"] {
        file.text(name);
        formats(file, 1, 200);
    }
    file.number(4, sizes.events as u64);
    formats(file, sizes.events, sizes.format);
    file.number(4, sizes.systems as u64);
    for _ in 0..sizes.systems {
        file.text(b"a_system\0");
        file.number(4, sizes.events as u64);
        formats(file, sizes.events, sizes.format);
    }
    for length in [sizes.kallsyms, 1000] {
        file.number(4, length as u64);
        file.fill(b'k', length);
    }
    formats(file, 1, 1000);
}

/// Texts, each with its size of 8 bytes before it.
fn formats(file: &mut Writer, count: usize, length: usize) {
    for _ in 0..count {
        file.number(8, length as u64);
        file.fill(b'f', length);
    }
}
