//! What is compared: every call of the C interface, with slices for pointers.

use crate::c::{
    Block, Count, CpuRange, DatSummary, Frame, FramePart, Length, Line, Mark, PairPart, Place, Selection, Settings,
    Value,
};

/// A frame record as the words that it fills, so that its padding is compared where it stays unchanged.
pub type Record = [u64; 4];

const _: () = assert!(size_of::<Record>() == size_of::<Frame>() && align_of::<Record>() == align_of::<Frame>());

/// A record's fields.
pub fn fields(record: &Record) -> Frame {
    let [first, place, size, registers_place] = *record;
    let [b0, b1, has_registers, ..] = first.to_ne_bytes();
    Frame {
        tracepoint: u16::from_ne_bytes([b0, b1]),
        has_registers,
        place: place as usize,
        size: size as usize,
        registers_place: registers_place as usize,
    }
}

/// Writes a record's fields, and only their bytes, as C would.
pub fn write_fields(record: &mut Record, frame: Frame) {
    let mut first = record[0].to_ne_bytes();
    first[..2].copy_from_slice(&frame.tracepoint.to_ne_bytes());
    first[2] = frame.has_registers;
    let places = [frame.place, frame.size, frame.registers_place];
    let [place, size, registers_place] = places.map(|place| place as u64);
    *record = [u64::from_ne_bytes(first), place, size, registers_place];
}

/// A reader of both formats. The first argument of a GDB call says how the trace is to be read.
pub struct Reader {
    pub default_settings: fn(u8) -> Settings,
    pub frame_count: fn(Settings, &[u8]) -> Count,
    pub end_mark: fn(Settings, &[u8]) -> Mark,
    pub frame_table: fn(Settings, &[u8], &mut [Record]) -> Count,
    pub line_place: fn(Settings, &[u8], usize) -> Line,
    pub frame_place: fn(Settings, &[u8], usize) -> FramePart,
    pub block_record: fn(Settings, &[u8], usize, usize) -> Block,
    pub registers_place: fn(Settings, &[u8], usize) -> Place,
    pub memory_place: fn(Settings, &[u8], usize, u64) -> Place,
    pub variable: fn(Settings, &[u8], usize, u32) -> Value,
    pub opposite: fn(Selection) -> Selection,
    pub cut: fn(Settings, &[u8], Selection, &mut [u8]) -> Length,
    pub join: fn(Settings, &[u8], &[u8], &mut [u8]) -> Length,
    pub pair_place: fn(Settings, &[u8], &[u8], usize) -> PairPart,
    pub pair_variable: fn(Settings, &[u8], &[u8], usize, u32) -> Value,
    pub dat_read: fn(&[u8]) -> DatSummary,
    pub dat_cpu_range: fn(&[u8], usize) -> CpuRange,
}
