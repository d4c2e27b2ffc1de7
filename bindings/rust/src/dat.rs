//! trace.dat files of version 6.
use crate::{raw, Order, Refusal};
use std::iter;

/// How a header ends.
#[derive(Clone, Copy, Debug, PartialEq, Eq, Hash)]
pub enum Ending {
    /// Text follows.
    Latency,
    /// The CPUs' data follow.
    Flyrecord,
}

/// A section of the file.
#[derive(Clone, Copy, Debug, PartialEq, Eq)]
pub struct Section<'a> {
    /// Where it starts in the file.
    pub place: usize,
    pub bytes: &'a [u8],
}

/// Where a CPU's data stand, as stored. Of a range of size 0 the offset may be any number.
#[derive(Clone, Copy, Debug, PartialEq, Eq)]
pub struct CpuRange {
    pub offset: u64,
    pub size: u64,
}

/// A trace.dat file whose header was read and accepted.
///
/// ```
/// use tufakpeni::{Ending, Refusal, TraceDat};
///
/// let mut file = b"\x17\x08\x44tracing6\0\0\x08\0\x10\0\0".to_vec();
/// file.extend(b"header_page\0\0\0\0\0\0\0\0\0");
/// file.extend(b"header_event\0\0\0\0\0\0\0\0\0");
/// file.extend([0; 4 + 4 + 4 + 4 + 8 + 4]);
/// file.extend(b"flyrecord\0");
///
/// let dat = TraceDat::open(&file)?;
/// assert_eq!(dat.page_size(), 4096);
/// assert_eq!(dat.ending(), Ending::Flyrecord);
/// assert_eq!(dat.cpu_count(), 0);
/// assert_eq!(TraceDat::open(&file[..96]).unwrap_err(), Refusal::FieldPastFile);
/// # Ok::<(), Refusal>(())
/// ```
#[derive(Clone, Copy, Debug)]
pub struct TraceDat<'a> {
    file: &'a [u8],
    summary: raw::DatSummary,
}

impl<'a> TraceDat<'a> {
    pub fn open(file: &'a [u8]) -> Result<TraceDat<'a>, Refusal> {
        let summary = raw::dat_read(file)?;
        Ok(TraceDat { file, summary })
    }

    pub fn order(&self) -> Order {
        Order::of_number(self.summary.order)
    }

    /// The size of the kernel's long, 4 or 8.
    pub fn long_size(&self) -> u8 {
        self.summary.long_size
    }

    pub fn page_size(&self) -> u32 {
        self.summary.page_size
    }

    pub fn ending(&self) -> Ending {
        match self.summary.ending {
            0 => Ending::Latency,
            _ => Ending::Flyrecord,
        }
    }

    /// How many ftrace formats there are.
    pub fn format_count(&self) -> u32 {
        self.summary.format_count
    }

    pub fn system_count(&self) -> u32 {
        self.summary.system_count
    }

    pub fn cpu_count(&self) -> u32 {
        self.summary.cpu_count
    }

    fn section(&self, part: raw::Part) -> Section<'a> {
        Section { place: part.place, bytes: &self.file[part.place..part.place + part.size] }
    }

    pub fn header_page(&self) -> Section<'a> {
        self.section(self.summary.header_page)
    }

    pub fn header_event(&self) -> Section<'a> {
        self.section(self.summary.header_event)
    }

    /// The ftrace formats, after their count.
    pub fn formats(&self) -> Section<'a> {
        self.section(self.summary.formats)
    }

    /// The systems, after their count.
    pub fn systems(&self) -> Section<'a> {
        self.section(self.summary.systems)
    }

    pub fn kallsyms(&self) -> Section<'a> {
        self.section(self.summary.kallsyms)
    }

    /// The printk formats.
    pub fn printk(&self) -> Section<'a> {
        self.section(self.summary.printk)
    }

    /// The process names.
    pub fn processes(&self) -> Section<'a> {
        self.section(self.summary.processes)
    }

    /// The options, from the first type through the closing 0, if the header has any.
    pub fn options(&self) -> Option<Section<'a>> {
        let options = self.summary.options;
        (options.size != 0).then(|| self.section(options))
    }

    /// The CPU entries, or the text of a latency file.
    pub fn body(&self) -> Section<'a> {
        self.section(self.summary.body)
    }

    /// CPU i's range; [`Refusal::NotFound`] where there is no such CPU, and for a latency file. The library reads the header for each.
    pub fn cpu_range(&self, i: usize) -> Result<CpuRange, Refusal> {
        let range = raw::dat_cpu_range(self.file, i)?;
        Ok(CpuRange { offset: range.offset, size: range.size })
    }

    /// The ranges of all CPUs, in order; none for a latency file. They are taken from the entries: to ask for each would read the header for
    /// each.
    pub fn cpu_ranges(&self) -> impl Iterator<Item = CpuRange> + 'a {
        let order = self.order();
        let entries = match self.ending() {
            Ending::Latency => &[],
            Ending::Flyrecord => self.body().bytes,
        };
        let mut numbers = entries.chunks_exact(8).map(move |bytes| number(order, bytes));
        iter::from_fn(move || Some(CpuRange { offset: numbers.next()?, size: numbers.next()? }))
    }

    /// CPU i's data, as that part of the caller's file.
    pub fn cpu_data(&self, i: usize) -> Result<&'a [u8], Refusal> {
        let range = self.cpu_range(i)?;
        if range.size == 0 {
            return Ok(&self.file[..0]);
        }
        let (offset, size) = (range.offset as usize, range.size as usize);
        Ok(&self.file[offset..offset + size])
    }
}

/// The number that these bytes hold.
fn number(order: Order, bytes: &[u8]) -> u64 {
    let add = |high, &low: &u8| high << 8 | u64::from(low);
    match order {
        Order::Little => bytes.iter().rev().fold(0, add),
        Order::Big => bytes.iter().fold(0, add),
    }
}
