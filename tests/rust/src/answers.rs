//! The second reader's answers in the structs of the C interface: on a refusal every other field is 0.

use crate::c::{self, Block, Count, CpuRange, DatSummary, FramePart, Length, Line, Mark, PairPart, Place, Value};
use crate::reader::{write_fields, Reader, Record};
use crate::second::dat::{self, Ending, Summary};
use crate::second::edit::{self, Pair, Selection, TracepointRange, Which};
use crate::second::gdb::{self, BlockKind, Frame, LineKind, Row, Trace};
use crate::second::{Order, Part, Refusal, Settings};
use std::num::NonZeroUsize;

/// An answer of the C interface.
pub trait Answer: Copy + Default + PartialEq + std::fmt::Debug {
    fn refusal(&self) -> u8;
    fn refused(refusal: u8) -> Self;
}

macro_rules! answers {
    ($($name:ident)*) => {
        $(impl Answer for $name {
            fn refusal(&self) -> u8 {
                self.refusal
            }
            fn refused(refusal: u8) -> Self {
                $name { refusal, ..Default::default() }
            }
        })*
    };
}

answers! { Count Mark Place FramePart Line Block Value Length PairPart DatSummary CpuRange }

fn answer<T, A: Answer>(result: Result<T, Refusal>, told: impl FnOnce(T) -> A) -> A {
    match result {
        Ok(found) => told(found),
        Err(refusal) => A::refused(refusal as u8),
    }
}

/// The second reader.
pub const SECOND: Reader = Reader {
    default_settings: |order| {
        let Settings { order, base } = Settings::of_order(order);
        c::Settings { order, base }
    },
    frame_count: |settings, file| answer(read(settings, file), |trace| count(trace.frame_count())),
    end_mark: |settings, file| answer(read(settings, file), |trace| mark(trace.is_marked())),
    frame_table: |settings, file, records| answer(frame_table(settings, file, records), count),
    line_place: |settings, file, j| answer(read(settings, file).and_then(|trace| trace.line(j)), line),
    frame_place: |settings, file, n| answer(gdb::frame_part(said(settings), file, n, |_| ()), frame_part),
    block_record: |settings, file, n, k| answer(read(settings, file).and_then(|trace| trace.block(n, k)), block),
    registers_place: |settings, file, n| answer(read(settings, file).and_then(|trace| trace.registers(n)), place),
    memory_place: |settings, file, n, address| {
        answer(read(settings, file).and_then(|trace| trace.memory(n, address)), place)
    },
    variable: |settings, file, n, number| {
        answer(read(settings, file).and_then(|trace| trace.variable(n, number)), value)
    },
    opposite: |selected| {
        let opposite = selection(&selected).opposite();
        c::Selection { keep: opposite.keep.into(), ..selected }
    },
    cut: |settings, file, selected, out| answer(edit::cut(said(settings), file, &selection(&selected), out), length),
    join: |settings, first, second, out| answer(edit::join(said(settings), first, second, out), length),
    pair_place: |settings, first, second, n| {
        answer(Pair::read(said(settings), first, second).and_then(|pair| pair.frame(n)), pair_part)
    },
    pair_variable: |settings, first, second, n, number| {
        answer(Pair::read(said(settings), first, second).and_then(|pair| pair.variable(n, number)), value)
    },
    dat_read: |file| answer(dat::read(file), |found| summary(&found)),
    dat_cpu_range: |file, i| answer(dat::cpu_range(file, i), cpu_range),
};

fn said(settings: c::Settings) -> Settings {
    let c::Settings { order, base } = settings;
    Settings { order, base }
}

pub fn read(settings: c::Settings, file: &[u8]) -> Result<Trace<'_>, Refusal> {
    Trace::read(said(settings), file)
}

/// The parts of a file that are read for the data of frame n.
pub fn parts_read(settings: c::Settings, file: &[u8], n: usize) -> Vec<Part> {
    let mut parts = Vec::new();
    // The parts are told whether or not there is an answer.
    let _ = gdb::frame_part(said(settings), file, n, |part| parts.push(part));
    parts
}

fn count(count: usize) -> Count {
    Count { refusal: 0, count }
}

fn mark(marked: bool) -> Mark {
    Mark { refusal: 0, marked: marked.into() }
}

fn length(length: usize) -> Length {
    Length { refusal: 0, length }
}

fn value(value: i64) -> Value {
    Value { refusal: 0, value }
}

fn place(part: Part) -> Place {
    Place { refusal: 0, place: part.place, length: part.length }
}

fn frame_part((data, heads): (Part, usize)) -> FramePart {
    FramePart { refusal: 0, place: data.place, length: data.length, heads }
}

fn cpu_range(range: dat::CpuRange) -> CpuRange {
    CpuRange { refusal: 0, offset: range.offset, size: range.size }
}

fn frame_table(settings: c::Settings, file: &[u8], records: &mut [Record]) -> Result<usize, Refusal> {
    let unset = Frame { tracepoint: 0, data: Part { place: 0, length: 0 } };
    let mut rows = vec![Row { frame: unset, registers: None }; records.len()];
    let count = read(settings, file)?.frame_table(&mut rows)?;
    for (record, row) in records.iter_mut().zip(&rows[..count]) {
        write_fields(record, frame(row));
    }
    Ok(count)
}

pub fn frame(Row { frame, registers }: &Row) -> c::Frame {
    c::Frame {
        tracepoint: frame.tracepoint,
        has_registers: registers.is_some().into(),
        place: frame.data.place,
        size: frame.data.length,
        registers_place: registers.map_or(0, NonZeroUsize::get),
    }
}

fn line(line: gdb::Line) -> Line {
    let kind = match line.kind {
        LineKind::Other => c::LINE_OTHER,
        LineKind::R => c::LINE_R,
        LineKind::Status => c::LINE_STATUS,
        LineKind::Tp => c::LINE_TP,
        LineKind::Tsv => c::LINE_TSV,
        LineKind::Tdesc => c::LINE_TDESC,
    };
    Line { refusal: 0, kind, place: line.part.place, length: line.part.length }
}

fn block(block: gdb::Block) -> Block {
    let common = Block { place: block.place, ..Default::default() };
    match block.kind {
        BlockKind::Registers { .. } => Block { letter: b'R', ..common },
        BlockKind::Memory { address, length } => Block { letter: b'M', address, length: length.into(), ..common },
        BlockKind::Variable { number, value } => Block { letter: b'V', number, value, ..common },
    }
}

pub fn selection(selection: &c::Selection) -> Selection {
    let ranges = selection.ranges.map(|c::Range { low, high }| TracepointRange { low, high });
    Selection { ranges, count: selection.count, keep: selection.keep != 0 }
}

fn pair_part((which, part): (Which, Part)) -> PairPart {
    let trace = match which {
        Which::First => 0,
        Which::Second => 1,
    };
    PairPart { refusal: 0, trace, place: part.place, length: part.length }
}

pub fn summary(summary: &Summary) -> DatSummary {
    let section = |part: Part| c::Part { place: part.place, size: part.length };
    DatSummary {
        refusal: 0,
        order: match summary.order {
            Order::Little => 0,
            Order::Big => 1,
        },
        long_size: summary.long_size,
        ending: match summary.ending {
            Ending::Latency => c::ENDING_LATENCY,
            Ending::Flyrecord => c::ENDING_FLYRECORD,
        },
        page_size: summary.page_size,
        format_count: summary.format_count,
        system_count: summary.system_count,
        cpu_count: summary.cpu_count,
        header_page: section(summary.header_page),
        header_event: section(summary.header_event),
        formats: section(summary.formats),
        systems: section(summary.systems),
        kallsyms: section(summary.kallsyms),
        printk: section(summary.printk),
        processes: section(summary.processes),
        options: summary.options.map_or_else(c::Part::default, section),
        body: section(summary.body),
    }
}
