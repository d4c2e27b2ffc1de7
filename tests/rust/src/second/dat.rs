//! The header of a trace.dat file of version 6, and its CPU ranges.

use super::{Order, Part, Refusal, MAX_LENGTH};

const MAX_CPUS: u32 = 1_024;
/// A CPU's offset and size.
const CPU_ENTRY: usize = 16;

/// How a header ends.
#[derive(Clone, Copy, Debug, PartialEq, Eq)]
pub enum Ending {
    Latency,
    Flyrecord,
}

/// Where each section of a header stands. Formats and systems are told without their counts; `body` is the CPU entries
/// or a latency file's text.
#[derive(Clone, Copy, Debug, PartialEq, Eq)]
pub struct Summary {
    pub order: Order,
    pub long_size: u8,
    pub page_size: u32,
    pub header_page: Part,
    pub header_event: Part,
    pub format_count: u32,
    pub formats: Part,
    pub system_count: u32,
    pub systems: Part,
    pub kallsyms: Part,
    pub printk: Part,
    pub processes: Part,
    pub cpu_count: u32,
    pub options: Option<Part>,
    pub ending: Ending,
    pub body: Part,
}

/// A CPU's range, as stored.
#[derive(Clone, Copy, Debug, PartialEq, Eq)]
pub struct CpuRange {
    pub offset: u64,
    pub size: u64,
}

/// Checks a file and tells where its sections stand.
pub fn read(file: &[u8]) -> Result<Summary, Refusal> {
    let summary = header(file)?;
    check_ranges(&summary, file)?;
    Ok(summary)
}

/// CPU i's range, as stored.
pub fn cpu_range(file: &[u8], i: usize) -> Result<CpuRange, Refusal> {
    let summary = read(file)?;
    cpu_ranges(&summary, file).nth(i).ok_or(Refusal::NotFound)
}

/// The ranges of a flyrecord file's CPUs; a latency file has none.
pub fn cpu_ranges<'a>(summary: &Summary, file: &'a [u8]) -> impl Iterator<Item = CpuRange> + 'a {
    let order = summary.order;
    let entries = match summary.ending {
        Ending::Flyrecord => &file[summary.body.place..summary.body.end()],
        Ending::Latency => &[],
    };
    entries.chunks_exact(CPU_ENTRY).filter_map(move |entry| {
        let (offset, size) = entry.split_first_chunk()?;
        let (size, _) = size.split_first_chunk()?;
        Some(CpuRange { offset: order.u64(*offset), size: order.u64(*size) })
    })
}

fn check_ranges(summary: &Summary, file: &[u8]) -> Result<(), Refusal> {
    let page_size = u64::from(summary.page_size);
    let header_end = summary.body.end() as u64;
    let file_end = file.len() as u64;
    let mut held = Vec::new();
    for CpuRange { offset, size } in cpu_ranges(summary, file).filter(|range| range.size > 0) {
        let end = offset.checked_add(size).filter(|&end| end <= file_end).ok_or(Refusal::BadRange)?;
        if !offset.is_multiple_of(page_size) || offset < header_end {
            return Err(Refusal::BadRange);
        }
        held.push((offset, end));
    }
    // Of ranges that hold something, sorted by offset, two overlap only where two neighbours do.
    held.sort_unstable();
    if held.windows(2).any(|pair| pair[1].0 < pair[0].1) {
        return Err(Refusal::RangesOverlap);
    }
    Ok(())
}

/// The header as far as its last CPU entry; the ranges are not judged.
pub fn header(file: &[u8]) -> Result<Summary, Refusal> {
    let mut cursor = Cursor::start(file)?;
    let long_size = cursor.long_size()?;
    let page_size = cursor.page_size()?;
    cursor.string(b"header_page\0")?;
    let header_page = cursor.piece()?;
    cursor.string(b"header_event\0")?;
    let header_event = cursor.piece()?;
    let (format_count, formats) = cursor.counted(|cursor| cursor.piece().map(drop))?;
    let (system_count, systems) = cursor.counted(Cursor::system)?;
    let kallsyms = cursor.short_piece()?;
    let printk = cursor.short_piece()?;
    let processes = cursor.piece()?;
    let cpu_count = cursor.cpu_count()?;
    let (options, ending) = cursor.ending()?;
    let body = match ending {
        Ending::Latency => Part { place: cursor.place, length: file.len() - cursor.place },
        Ending::Flyrecord => cursor.part(u64::from(cpu_count) * CPU_ENTRY as u64)?,
    };
    Ok(Summary {
        order: cursor.order,
        long_size,
        page_size,
        header_page,
        header_event,
        format_count,
        formats,
        system_count,
        systems,
        kallsyms,
        printk,
        processes,
        cpu_count,
        options,
        ending,
        body,
    })
}

/// The ten-byte words after the CPU count.
enum Word {
    Options,
    Ending(Ending),
}

/// How far a header has been read.
struct Cursor<'a> {
    file: &'a [u8],
    place: usize,
    order: Order,
}

impl<'a> Cursor<'a> {
    /// A file read as far as its byte order, in which all later numbers stand.
    fn start(file: &'a [u8]) -> Result<Self, Refusal> {
        if file.len() > MAX_LENGTH {
            return Err(Refusal::TooLong);
        }
        let mut cursor = Cursor { file, place: 0, order: Order::Little };
        cursor.string(&[0x17, 0x08, 0x44])?;
        cursor.string(b"tracing")?;
        cursor.string(b"6\0")?;
        cursor.order = Order::from_flag(cursor.u8()?).ok_or(Refusal::BadConstant)?;
        Ok(cursor)
    }

    fn rest(&self) -> &'a [u8] {
        &self.file[self.place..]
    }

    /// The next `length` bytes as a part of the file.
    fn part(&mut self, length: u64) -> Result<Part, Refusal> {
        let length = usize::try_from(length).ok().filter(|&length| length <= self.rest().len());
        let part = Part { place: self.place, length: length.ok_or(Refusal::FieldPastFile)? };
        self.place = part.end();
        Ok(part)
    }

    fn bytes<const N: usize>(&mut self) -> Result<[u8; N], Refusal> {
        let bytes = *self.rest().first_chunk().ok_or(Refusal::FieldPastFile)?;
        self.place += N;
        Ok(bytes)
    }

    fn u8(&mut self) -> Result<u8, Refusal> {
        let [byte] = self.bytes()?;
        Ok(byte)
    }

    fn u16(&mut self) -> Result<u16, Refusal> {
        Ok(self.order.u16(self.bytes()?))
    }

    fn u32(&mut self) -> Result<u32, Refusal> {
        Ok(self.order.u32(self.bytes()?))
    }

    fn u64(&mut self) -> Result<u64, Refusal> {
        Ok(self.order.u64(self.bytes()?))
    }

    /// A fixed string: one cut short is past the file, whatever of it is there.
    fn string(&mut self, expected: &[u8]) -> Result<(), Refusal> {
        let part = self.part(expected.len() as u64)?;
        if self.file[part.place..part.end()] != *expected {
            return Err(Refusal::BadConstant);
        }
        Ok(())
    }

    fn long_size(&mut self) -> Result<u8, Refusal> {
        let size = self.u8()?;
        if !matches!(size, 4 | 8) {
            return Err(Refusal::BadConstant);
        }
        Ok(size)
    }

    fn page_size(&mut self) -> Result<u32, Refusal> {
        let size = self.u32()?;
        if !size.is_power_of_two() || !(1_024..=65_536).contains(&size) {
            return Err(Refusal::BadConstant);
        }
        Ok(size)
    }

    /// An 8-byte size, and that many bytes.
    fn piece(&mut self) -> Result<Part, Refusal> {
        let size = self.u64()?;
        self.part(size)
    }

    /// A 4-byte size, and that many bytes.
    fn short_piece(&mut self) -> Result<Part, Refusal> {
        let size = self.u32()?;
        self.part(size.into())
    }

    /// A 4-byte count, and the part that so many items fill.
    fn counted(&mut self, mut item: impl FnMut(&mut Self) -> Result<(), Refusal>) -> Result<(u32, Part), Refusal> {
        let count = self.u32()?;
        let place = self.place;
        for _ in 0..count {
            item(self)?;
        }
        Ok((count, Part { place, length: self.place - place }))
    }

    /// A system: its name up to the NUL, and its event formats.
    fn system(&mut self) -> Result<(), Refusal> {
        let name = self.rest().iter().position(|&byte| byte == 0).ok_or(Refusal::FieldPastFile)?;
        self.place += name + 1;
        self.counted(|cursor| cursor.piece().map(drop)).map(drop)
    }

    fn cpu_count(&mut self) -> Result<u32, Refusal> {
        let count = self.u32()?;
        if count > MAX_CPUS {
            return Err(Refusal::BadRange);
        }
        Ok(count)
    }

    fn word(&mut self) -> Result<Word, Refusal> {
        match &self.bytes::<10>()? {
            b"options  \0" => Ok(Word::Options),
            b"latency  \0" => Ok(Word::Ending(Ending::Latency)),
            b"flyrecord\0" => Ok(Word::Ending(Ending::Flyrecord)),
            _ => Err(Refusal::BadConstant),
        }
    }

    /// The option list, if there is one, and the word that says how the header ends.
    fn ending(&mut self) -> Result<(Option<Part>, Ending), Refusal> {
        if let Word::Ending(ending) = self.word()? {
            return Ok((None, ending));
        }
        let options = self.options()?;
        match self.word()? {
            Word::Ending(ending) => Ok((Some(options), ending)),
            Word::Options => Err(Refusal::BadConstant),
        }
    }

    /// Options up to and with the closing type 0, which has no size.
    fn options(&mut self) -> Result<Part, Refusal> {
        let place = self.place;
        while self.u16()? != 0 {
            self.short_piece()?;
        }
        Ok(Part { place, length: self.place - place })
    }
}
