//! Valid trace.dat files, kept as sections until they are written out.

use super::{put, Random};

/// What a stretch of a written header is.
#[derive(Clone, Copy, Debug, PartialEq, Eq)]
pub enum Field {
    String,
    Order,
    LongSize,
    PageSize,
    Size,
    Data,
    Count,
    Name,
    CpuCount,
    Word,
    OptionType,
    CpuEntry,
}

/// Where a field of a written header stands.
#[derive(Clone, Copy)]
pub struct Mark {
    pub field: Field,
    pub place: usize,
    pub length: usize,
}

/// A header's bytes and its fields, in order.
pub struct Header {
    pub bytes: Vec<u8>,
    pub marks: Vec<Mark>,
    order: u8,
}

impl Header {
    fn add(&mut self, field: Field, bytes: &[u8]) {
        self.marks.push(Mark { field, place: self.bytes.len(), length: bytes.len() });
        self.bytes.extend_from_slice(bytes);
    }

    fn number(&mut self, field: Field, width: usize, number: u64) {
        self.marks.push(Mark { field, place: self.bytes.len(), length: width });
        put(&mut self.bytes, self.order, width, number);
    }

    /// A size of this width, and the data.
    fn piece(&mut self, width: usize, data: &[u8]) {
        self.number(Field::Size, width, data.len() as u64);
        self.add(Field::Data, data);
    }

    fn pieces(&mut self, pieces: &[Vec<u8>]) {
        self.number(Field::Count, 4, pieces.len() as u64);
        for piece in pieces {
            self.piece(8, piece);
        }
    }

    /// A field of one of these sorts.
    pub fn any(&self, random: &mut Random, fields: &[Field]) -> Mark {
        let marks: Vec<_> = self.marks.iter().filter(|mark| fields.contains(&mark.field)).collect();
        *marks[random.below(marks.len())]
    }
}

/// A system's name, which has no NUL, and its event formats.
#[derive(Clone)]
pub struct System {
    pub name: Vec<u8>,
    pub events: Vec<Vec<u8>>,
}

/// A CPU's range, as it is to be stored.
#[derive(Clone, Copy, Debug, PartialEq, Eq)]
pub struct Range {
    pub offset: u64,
    pub size: u64,
}

/// How the header ends.
#[derive(Clone)]
pub enum Ending {
    Latency { text: Vec<u8> },
    Flyrecord { ranges: Vec<Range> },
}

/// A trace.dat file. `cpu_count` is what it says of its CPUs; `length` is the file's, where that is beyond the header.
#[derive(Clone)]
pub struct Dat {
    pub order: u8,
    pub long_size: u8,
    pub page_size: u32,
    pub header_page: Vec<u8>,
    pub header_event: Vec<u8>,
    pub formats: Vec<Vec<u8>>,
    pub systems: Vec<System>,
    pub kallsyms: Vec<u8>,
    pub printk: Vec<u8>,
    pub processes: Vec<u8>,
    pub cpu_count: u32,
    pub options: Option<Vec<(u16, Vec<u8>)>>,
    pub ending: Ending,
    pub length: usize,
}

impl Dat {
    /// A file with nothing in any section.
    pub fn bare(order: u8, page_size: u32) -> Self {
        Dat {
            order,
            long_size: 8,
            page_size,
            header_page: Vec::new(),
            header_event: Vec::new(),
            formats: Vec::new(),
            systems: Vec::new(),
            kallsyms: Vec::new(),
            printk: Vec::new(),
            processes: Vec::new(),
            cpu_count: 0,
            options: None,
            ending: Ending::Flyrecord { ranges: Vec::new() },
            length: 0,
        }
    }

    /// Sections of every sort, and no CPUs yet.
    pub fn sections(random: &mut Random, page_size: u32) -> Self {
        let bare = Dat::bare(random.below(2) as u8, page_size);
        Dat {
            long_size: random.pick(&[4, 8]),
            header_page: data(random),
            header_event: data(random),
            formats: several(random, data),
            systems: several(random, system),
            kallsyms: data(random),
            printk: data(random),
            processes: data(random),
            options: (!random.one_in(3)).then(|| several(random, option)),
            ..bare
        }
    }

    pub fn valid(random: &mut Random) -> Self {
        let page_size = any_page_size(random);
        let mut dat = Dat::sections(random, page_size);
        if random.one_in(5) {
            dat.cpu_count = random.pick(&[0, 1, 2, 1_024]);
            dat.ending = Ending::Latency { text: data(random) };
            return dat;
        }
        let count = random.pick(&[0, 1, 1, 2, 2, 3, 4, 6]);
        let count = if random.one_in(200) { 60 } else { count };
        let pages: Vec<_> = (0..count).map(|_| random.pick(&[0, 0, 1, 1, 2])).collect();
        dat.lay_out(random, &pages);
        dat
    }

    /// A file whose header ends with this many bytes after a page's start, and whose CPUs hold these pages.
    pub fn ending_at(random: &mut Random, beyond: usize, pages: &[u64]) -> Self {
        let mut dat = Dat::sections(random, 1_024);
        dat.lay_out(random, pages);
        let end = dat.header().bytes.len();
        dat.printk.extend(vec![b'p'; (1_024 + beyond - end % 1_024) % 1_024]);
        dat.lay_out(random, pages);
        dat
    }

    /// Gives each CPU a range of so many pages, in any order and none over another; an empty one has any offset.
    pub fn lay_out(&mut self, random: &mut Random, pages: &[u64]) {
        let page = u64::from(self.page_size);
        let mut ranges = vec![Range { offset: 0, size: 0 }; pages.len()];
        self.cpu_count = pages.len() as u32;
        self.ending = Ending::Flyrecord { ranges: ranges.clone() };
        let mut free = (self.header().bytes.len() as u64).next_multiple_of(page);
        let mut turns: Vec<_> = (0..pages.len()).collect();
        random.shuffle(&mut turns);
        for cpu in turns {
            ranges[cpu] = match pages[cpu] {
                0 => Range { offset: wild(random, free), size: 0 },
                count => Range { offset: free, size: count * page - random.pick(&[0, 0, 1, page / 2]) },
            };
            free += pages[cpu] * page;
        }
        let held = ranges.iter().filter(|range| range.size > 0).map(|range| range.offset + range.size);
        self.length = held.max().unwrap_or(0) as usize + random.pick(&[0, 0, 1, 100]);
        self.ending = Ending::Flyrecord { ranges };
    }

    pub fn ranges(&mut self) -> &mut Vec<Range> {
        match &mut self.ending {
            Ending::Flyrecord { ranges } => ranges,
            Ending::Latency { .. } => panic!("a latency file has no ranges"),
        }
    }

    pub fn header(&self) -> Header {
        let mut header = Header { bytes: Vec::new(), marks: Vec::new(), order: self.order };
        self.write_front(&mut header);
        header.pieces(&self.formats);
        header.number(Field::Count, 4, self.systems.len() as u64);
        for system in &self.systems {
            header.add(Field::Name, &[&system.name[..], b"\0"].concat());
            header.pieces(&system.events);
        }
        header.piece(4, &self.kallsyms);
        header.piece(4, &self.printk);
        header.piece(8, &self.processes);
        header.number(Field::CpuCount, 4, self.cpu_count.into());
        self.write_end(&mut header);
        header
    }

    fn write_front(&self, header: &mut Header) {
        header.add(Field::String, b"\x17\x08\x44");
        header.add(Field::String, b"tracing");
        header.add(Field::String, b"6\0");
        header.add(Field::Order, &[self.order]);
        header.add(Field::LongSize, &[self.long_size]);
        header.number(Field::PageSize, 4, self.page_size.into());
        header.add(Field::String, b"header_page\0");
        header.piece(8, &self.header_page);
        header.add(Field::String, b"header_event\0");
        header.piece(8, &self.header_event);
    }

    fn write_end(&self, header: &mut Header) {
        if let Some(options) = &self.options {
            header.add(Field::Word, b"options  \0");
            for (kind, data) in options {
                header.number(Field::OptionType, 2, (*kind).into());
                header.piece(4, data);
            }
            header.number(Field::OptionType, 2, 0);
        }
        match &self.ending {
            Ending::Latency { .. } => header.add(Field::Word, b"latency  \0"),
            Ending::Flyrecord { ranges } => {
                header.add(Field::Word, b"flyrecord\0");
                for range in ranges {
                    header.number(Field::CpuEntry, 8, range.offset);
                    header.number(Field::CpuEntry, 8, range.size);
                }
            }
        }
    }

    pub fn bytes(&self) -> Vec<u8> {
        let mut bytes = self.header().bytes;
        match &self.ending {
            Ending::Latency { text } => bytes.extend_from_slice(text),
            Ending::Flyrecord { .. } => bytes.resize(self.length.max(bytes.len()), b'c'),
        }
        bytes
    }
}

pub const PAGE_SIZES: [u32; 7] = [1_024, 2_048, 4_096, 8_192, 16_384, 32_768, 65_536];

/// Mostly the smallest, for the files' size.
fn any_page_size(random: &mut Random) -> u32 {
    if random.one_in(60) {
        return random.pick(&[8_192, 16_384, 32_768, 65_536]);
    }
    random.pick(&[1_024, 1_024, 1_024, 2_048, 4_096])
}

/// An offset that an empty range may have.
pub fn wild(random: &mut Random, inside: u64) -> u64 {
    random.pick(&[0, 1, inside, inside + 1, inside.saturating_sub(1), 1 << 40, u64::MAX, u64::MAX - 4_095])
}

fn several<T>(random: &mut Random, one: fn(&mut Random) -> T) -> Vec<T> {
    let count = random.pick(&[0, 0, 1, 1, 2, 3]);
    (0..count).map(|_| one(random)).collect()
}

pub fn data(random: &mut Random) -> Vec<u8> {
    let length = random.pick(&[0, 0, 1, 2, 5, 9, 20]);
    random.bytes(length)
}

fn system(random: &mut Random) -> System {
    let mut name = data(random);
    name.retain(|&byte| byte != 0);
    System { name, events: several(random, data) }
}

/// An option of a type other than 0, which ends the list.
fn option(random: &mut Random) -> (u16, Vec<u8>) {
    (random.pick(&[1, 2, 3, 0x0100, 0x00FF, 0xFFFF]), data(random))
}
