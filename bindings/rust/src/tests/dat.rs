//! trace.dat files.
use super::bytes::{number, stands_at, ORDERS};
use crate::{CpuRange, Ending, Order, Refusal, Section, TraceDat};

const PAGE: usize = 4096;

/// What stands in a file's sections; all empty in the smallest file.
#[derive(Default)]
struct Dat {
    header_page: &'static [u8],
    header_event: &'static [u8],
    formats: Vec<&'static [u8]>,
    /// Each system's name with its NUL, and its formats.
    systems: Vec<(&'static [u8], Vec<&'static [u8]>)>,
    kallsyms: &'static [u8],
    printk: &'static [u8],
    processes: &'static [u8],
    options: Option<&'static [u8]>,
    cpus: Vec<(u64, u64)>,
    latency: bool,
}

/// Bytes with their size before them.
fn sized(order: Order, width: usize, bytes: &[u8]) -> Vec<u8> {
    [&number(order, width, bytes.len() as u64), bytes].concat()
}

/// Formats with their count before them.
fn formats(order: Order, formats: &[&[u8]]) -> Vec<u8> {
    let sized: Vec<Vec<u8>> = formats.iter().map(|format| sized(order, 8, format)).collect();
    [number(order, 4, formats.len() as u64), sized.concat()].concat()
}

impl Dat {
    fn sections(&self, order: Order) -> Vec<u8> {
        let mut file = [b"header_page\0", &sized(order, 8, self.header_page)[..]].concat();
        file.extend([b"header_event\0", &sized(order, 8, self.header_event)[..]].concat());
        file.extend(formats(order, &self.formats));
        file.extend(number(order, 4, self.systems.len() as u64));
        for (name, events) in &self.systems {
            file.extend([*name, &formats(order, events)].concat());
        }
        file.extend(sized(order, 4, self.kallsyms));
        file.extend(sized(order, 4, self.printk));
        file.extend(sized(order, 8, self.processes));
        file
    }

    fn header(&self, order: Order) -> Vec<u8> {
        let mut file = [b"\x17\x08\x44tracing6\0", &[order.number(), 8][..], &number(order, 4, PAGE as u64)].concat();
        file.extend(self.sections(order));
        file.extend(number(order, 4, self.cpus.len() as u64));
        if let Some(options) = self.options {
            file.extend([b"options  \0", options].concat());
        }
        file.extend(if self.latency { b"latency  \0" } else { b"flyrecord\0" });
        if !self.latency {
            file.extend(self.cpus.iter().flat_map(|&(a, b)| [number(order, 8, a), number(order, 8, b)].concat()));
        }
        file
    }

    /// The file, as long as `length` says where that is longer than the header.
    fn file(&self, order: Order, length: usize) -> Vec<u8> {
        let mut file = self.header(order);
        file.resize(length.max(file.len()), 0xDA);
        file
    }
}

fn with_cpus(cpus: &[(u64, u64)]) -> Dat {
    Dat { cpus: cpus.to_vec(), ..Dat::default() }
}

#[test]
fn the_smallest_file() {
    for order in ORDERS {
        let file = Dat::default().file(order, 0);
        assert_eq!(file.len(), 97);
        let dat = TraceDat::open(&file).unwrap();
        assert_eq!((dat.order(), dat.long_size(), dat.page_size()), (order, 8, 4096));
        assert_eq!((dat.format_count(), dat.system_count(), dat.cpu_count()), (0, 0, 0));
        assert_eq!(dat.ending(), Ending::Flyrecord);
        assert_eq!(dat.options(), None);
        assert_eq!(dat.body(), Section { place: 97, bytes: b"" });
        assert_eq!(dat.cpu_range(0), Err(Refusal::NotFound));
        assert_eq!(TraceDat::open(&file[..96]).unwrap_err(), Refusal::FieldPastFile);
    }
}

#[test]
fn wrong_constants() {
    for order in ORDERS {
        let sound = Dat::default().file(order, 0);
        for (place, byte) in [(0, 0), (3, b'T'), (10, b'7'), (12, 2), (13, 5), (16, 1), (18, b'H'), (87, b'o')] {
            let mut file = sound.clone();
            file[place] = byte;
            assert_eq!(TraceDat::open(&file).unwrap_err(), Refusal::BadConstant, "byte {place}");
        }
    }
}

#[test]
fn sections_are_parts_of_the_file() {
    let written = Dat {
        header_page: b"page",
        header_event: b"events",
        formats: vec![b"f", b""],
        systems: vec![(b"irq\0", vec![b"one", b"two"]), (b"\0", vec![])],
        kallsyms: b"symbols",
        printk: b"pk",
        processes: b"1 init",
        options: Some(b"\0\0"),
        ..Dat::default()
    };
    for order in ORDERS {
        let file = written.file(order, 0);
        let dat = TraceDat::open(&file).unwrap();
        assert_eq!((dat.format_count(), dat.system_count()), (2, 2));
        assert_eq!(dat.header_page().bytes, b"page");
        assert_eq!(dat.header_event().bytes, b"events");
        assert_eq!(dat.formats().bytes, &formats(order, &written.formats)[4..]);
        let systems = [b"irq\0", &formats(order, &[b"one", b"two"])[..], b"\0", &formats(order, &[])].concat();
        assert_eq!(dat.systems().bytes, systems);
        assert_eq!(dat.kallsyms().bytes, b"symbols");
        assert_eq!(dat.printk().bytes, b"pk");
        assert_eq!(dat.processes().bytes, b"1 init");
        assert_eq!(dat.options().unwrap().bytes, b"\0\0");
        let sections = [dat.header_page(), dat.formats(), dat.kallsyms(), dat.options().unwrap(), dat.body()];
        assert!(sections.iter().all(|section| stands_at(&file, section.place, section.bytes)));
    }
}

/// 1,024 CPUs out of order, all numbers of different bytes: the list has what the library answers for each.
#[test]
fn all_ranges_are_those_of_each_cpu() {
    let area = |cpu: u64| (1 << 15) + cpu * 421 % 1024 * 4096;
    let cpus: Vec<_> = (0..1024).map(|cpu| (area(cpu), 4096 - cpu)).collect();
    for order in ORDERS {
        let file = with_cpus(&cpus).file(order, (1 << 15) + 1024 * 4096);
        let dat = TraceDat::open(&file).unwrap();
        assert!(dat.cpu_ranges().map(|range| (range.offset, range.size)).eq(cpus.iter().copied()));
        assert!((0..1024).step_by(101).all(|cpu| dat.cpu_range(cpu).ok() == dat.cpu_ranges().nth(cpu)));
    }
}

#[test]
fn cpu_ranges_are_answered_as_stored() {
    let cpus = [(8192, 100), (u64::MAX, 0), (4096, 4096)];
    for order in ORDERS {
        let file = with_cpus(&cpus).file(order, 8292);
        let dat = TraceDat::open(&file).unwrap();
        assert_eq!(dat.cpu_count(), 3);
        assert!(dat.cpu_ranges().map(|range| (range.offset, range.size)).eq(cpus));
        assert_eq!(dat.cpu_range(1), Ok(CpuRange { offset: u64::MAX, size: 0 }));
        assert_eq!(dat.cpu_range(3), Err(Refusal::NotFound));
        assert_eq!(dat.cpu_data(0).unwrap(), [0xDA; 100]);
        assert!(stands_at(&file, 8192, dat.cpu_data(0).unwrap()));
        assert_eq!(dat.cpu_data(1).unwrap(), []);
        assert_eq!(dat.cpu_data(3), Err(Refusal::NotFound));
        assert_eq!(dat.body().bytes.len(), 48);
    }
}

#[test]
fn faulty_cpu_ranges() {
    let bad = Some(Refusal::BadRange);
    let top = u64::MAX - 4095;
    for order in ORDERS {
        let refusal = |cpus: &[(u64, u64)]| {
            let file = with_cpus(cpus).file(order, 12288);
            TraceDat::open(&file).err()
        };
        assert_eq!(refusal(&[(4096, 4096), (8192, 4096)]), None);
        assert_eq!(refusal(&[(4097, 1)]), bad);
        assert_eq!(refusal(&[(0, 1)]), bad);
        assert_eq!(refusal(&[(8192, 4097)]), bad);
        assert_eq!(refusal(&[(top, 8192)]), bad);
        let overlapping = [(4096, 4097), (8192, 1)];
        assert_eq!(refusal(&overlapping), Some(Refusal::RangesOverlap));
        assert_eq!(refusal(&[&overlapping[..], &[(4097, 1)]].concat()), bad);
    }
}

#[test]
fn the_number_of_cpus() {
    for order in ORDERS {
        let most = with_cpus(&[(0, 0); 1024]).file(order, 0);
        assert_eq!(TraceDat::open(&most).unwrap().cpu_ranges().count(), 1024);
        let more = with_cpus(&[(0, 0); 1025]).file(order, 0);
        assert_eq!(TraceDat::open(&more).unwrap_err(), Refusal::BadRange);
    }
}

#[test]
fn a_latency_file_has_text() {
    let written = Dat { latency: true, cpus: vec![(4096, 1)], ..Dat::default() };
    for order in ORDERS {
        let file = written.file(order, 100);
        let dat = TraceDat::open(&file).unwrap();
        assert_eq!(dat.ending(), Ending::Latency);
        assert_eq!((dat.cpu_count(), dat.body()), (1, Section { place: 97, bytes: &[0xDA; 3] }));
        assert_eq!(dat.cpu_range(0), Err(Refusal::NotFound));
        assert_eq!(dat.cpu_ranges().count(), 0);
    }
}
