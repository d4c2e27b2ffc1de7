//! trace.dat files at both sides of each edge of the rules, each with the refusal that its making settles.

use super::dat::{data, wild, Dat, Ending, Field, Range, System, PAGE_SIZES};
use super::{put_at, Made, Random};
use crate::second::Refusal;

/// A maker of files at one edge.
type Edge = fn(&mut Random) -> Made;

pub const EDGES: [Edge; 21] = [
    bare,
    wrong_string,
    field_cut,
    wrong_flag,
    page_size,
    size_past_file,
    endless_count,
    name_without_end,
    wrong_word,
    options_twice,
    option_list,
    cpu_count,
    misaligned,
    before_header_end,
    past_file_end,
    wrapping_range,
    overlap,
    long_ranges,
    misaligned_and_overlapping,
    empty_ranges,
    many_cpus,
];

const PAGE: u64 = 1_024;

fn made(name: &'static str, dat: &Dat, refusal: Option<Refusal>) -> Made {
    Made::new(name, dat.bytes(), settled(refusal))
}

fn settled(refusal: Option<Refusal>) -> Option<u8> {
    Some(refusal.map_or(0, |refusal| refusal as u8))
}

/// A file with CPUs that hold one page each, and with empty ones between them.
fn with_cpus(random: &mut Random) -> Dat {
    with_pages(random, PAGE as u32)
}

/// The same with pages of this size.
fn with_pages(random: &mut Random, page_size: u32) -> Dat {
    let mut dat = Dat::sections(random, page_size);
    let pages: Vec<_> = (0..2 + random.below(5)).map(|_| random.pick(&[0, 1, 1])).chain([1, 1]).collect();
    dat.lay_out(random, &pages);
    dat
}

/// One of the CPUs that hold something.
fn held_cpu(random: &mut Random, dat: &mut Dat) -> usize {
    let ranges = dat.ranges();
    let held: Vec<_> = (0..ranges.len()).filter(|&cpu| ranges[cpu].size > 0).collect();
    random.pick(&held)
}

/// Nothing in any section: 97 bytes, or one byte fewer.
fn bare(random: &mut Random) -> Made {
    let bytes = Dat::bare(random.below(2) as u8, 4_096).bytes();
    let length = bytes.len() - random.below(2);
    let refusal = (length < 97).then_some(Refusal::FieldPastFile);
    Made::front("bare", bytes, length, settled(refusal))
}

/// A byte of a fixed string changed; where the string is also cut short, that comes first.
fn wrong_string(random: &mut Random) -> Made {
    let header = Dat::valid(random).header();
    let mark = header.any(random, &[Field::String, Field::Word]);
    let mut bytes = header.bytes;
    bytes[mark.place + random.below(mark.length)] ^= 1 + random.byte() % 255;
    let end = mark.place + mark.length;
    if random.one_in(2) {
        return Made::front("string", bytes, end, settled(Some(Refusal::BadConstant)));
    }
    let short = end - 1 - random.below(mark.length);
    Made::front("string", bytes, short, settled(Some(Refusal::FieldPastFile)))
}

/// A header cut inside any of its fields.
fn field_cut(random: &mut Random) -> Made {
    let header = Dat::valid(random).header();
    let mark = random.pick(&header.marks);
    let short = mark.place + random.below(mark.length.max(1));
    Made::front("field cut", header.bytes, short, settled(Some(Refusal::FieldPastFile)))
}

/// A wrong byte order or long size, whatever follows it.
fn wrong_flag(random: &mut Random) -> Made {
    let header = Dat::valid(random).header();
    let mark = header.any(random, &[Field::Order, Field::LongSize]);
    let mut bytes = header.bytes;
    bytes[mark.place] = match mark.field {
        Field::Order => random.pick(&[2, 3, 4, 8, 128, 255]),
        _ => random.pick(&[0, 1, 2, 3, 5, 7, 9, 16, 255]),
    };
    Made::front("flag", bytes, mark.place + 1 + random.below(2), settled(Some(Refusal::BadConstant)))
}

/// Every page size that is one, and sizes around them.
fn page_size(random: &mut Random) -> Made {
    let right = random.one_in(2);
    let page_size = if right {
        random.pick(&PAGE_SIZES)
    } else {
        random.pick(&[0, 1, 512, 1_000, 1_023, 1_025, 3_072, 4_097, 65_535, 65_537, 131_072, 1 << 31, u32::MAX])
    };
    let dat = Dat::sections(random, page_size);
    made("page size", &dat, (!right).then_some(Refusal::BadConstant))
}

/// A size that is one more than the bytes that follow it, or far more.
fn size_past_file(random: &mut Random) -> Made {
    let dat = Dat::valid(random);
    let header = dat.header();
    let mark = header.any(random, &[Field::Size]);
    let mut bytes = header.bytes;
    let left = (bytes.len() - mark.place - mark.length) as u64;
    let most = u64::MAX >> (64 - 8 * mark.length);
    let size = random.pick(&[left, left + 1, left + 2, most, most - 7, most / 2 + 1, 1 << 31]);
    put_at(&mut bytes, mark.place, dat.order, mark.length, size);
    Made::new("size", bytes, settled(Some(Refusal::FieldPastFile)))
}

/// A count of far more items than the file can hold.
fn endless_count(random: &mut Random) -> Made {
    let dat = Dat::valid(random);
    let header = dat.header();
    let mark = header.any(random, &[Field::Count]);
    let mut bytes = header.bytes;
    put_at(&mut bytes, mark.place, dat.order, 4, random.pick(&[u32::MAX, 1 << 31, 1 << 20]).into());
    Made::new("count", bytes, settled(Some(Refusal::FieldPastFile)))
}

/// A system whose name runs to the file's end.
fn name_without_end(random: &mut Random) -> Made {
    let mut dat = Dat::sections(random, PAGE as u32);
    dat.systems.push(System { name: b"sched".to_vec(), events: Vec::new() });
    let header = dat.header();
    let mark = header.any(random, &[Field::Name]);
    let mut bytes = header.bytes;
    for byte in &mut bytes[mark.place..] {
        *byte |= 1;
    }
    Made::new("name", bytes, settled(Some(Refusal::FieldPastFile)))
}

/// A word that is none of the three.
fn wrong_word(random: &mut Random) -> Made {
    const WORDS: [&[u8]; 9] = [
        b"options \0\0",
        b"latency\0\0\0",
        b"Flyrecord\0",
        b"flyrecord ",
        b"options   ",
        b"latency   ",
        b"option  \0\0",
        b"\0\0\0\0\0\0\0\0\0\0",
        b"flyrecordX",
    ];
    let header = Dat::valid(random).header();
    let mark = header.any(random, &[Field::Word]);
    let mut bytes = header.bytes;
    bytes[mark.place..mark.place + 10].copy_from_slice(random.pick(&WORDS));
    Made::new("word", bytes, settled(Some(Refusal::BadConstant)))
}

/// A second option list where the ending should stand.
fn options_twice(random: &mut Random) -> Made {
    let mut dat = Dat::sections(random, PAGE as u32);
    dat.options = Some(vec![(1, data(random))]);
    let header = dat.header();
    let ending = header.marks.last().expect("a word").place;
    let mut bytes = header.bytes;
    let again = [b"options  \0", &[0, 0][..], &bytes[ending..]].concat();
    bytes.truncate(ending);
    bytes.extend_from_slice(&again);
    Made::new("options twice", bytes, settled(Some(Refusal::BadConstant)))
}

/// Option lists of every shape: the closing 0 alone, options of size 0, many of one type.
fn option_list(random: &mut Random) -> Made {
    let mut dat = Dat::valid(random);
    let kind = random.pick(&[1, 0x0100, 0xFFFF]);
    let lists = [vec![], vec![(kind, vec![])], vec![(kind, vec![0; 6]); 5], vec![(kind, b"options  \0".to_vec())]];
    let list = lists[random.below(lists.len())].clone();
    dat.options = Some(list);
    if let Ending::Flyrecord { ranges } = &dat.ending {
        let empty = vec![0; ranges.len()];
        dat.lay_out(random, &empty);
    }
    made("option list", &dat, None)
}

/// As many CPUs as may be, or one more; one too many is refused before what follows, and in a latency file too.
fn cpu_count(random: &mut Random) -> Made {
    let mut dat = Dat::sections(random, PAGE as u32);
    if random.one_in(2) {
        dat.ending = Ending::Latency { text: data(random) };
    }
    if random.one_in(2) {
        dat.cpu_count = random.pick(&[1_025, 1_026, 65_536, 1 << 24, 1 << 31, u32::MAX]);
        let header = dat.header();
        let count = header.any(random, &[Field::CpuCount]);
        let end = count.place + 4 + random.pick(&[0, 3, 10]);
        return Made::front("CPU count", header.bytes, end, settled(Some(Refusal::BadRange)));
    }
    dat.cpu_count = 1_024;
    if let Ending::Flyrecord { ranges } = &mut dat.ending {
        ranges.extend((0..1_024).map(|_| Range { offset: wild(random, 4_096), size: 0 }));
    }
    made("CPU count", &dat, None)
}

/// A range that starts on a page's start, or off it: by one bit below the page size, by half a page, by all those bits, by any of them.
fn misaligned(random: &mut Random) -> Made {
    let page_size = random.pick(&PAGE_SIZES);
    let page = u64::from(page_size);
    let mut dat = with_pages(random, page_size);
    let cpu = held_cpu(random, &mut dat);
    let bit = 1 << random.below(page.trailing_zeros() as usize);
    let any = 1 + random.below(page_size as usize - 1) as u64;
    let off = random.pick(&[0, 0, 1, bit, page / 2, page - 1, any, any]);
    let range = &mut dat.ranges()[cpu];
    *range = Range { offset: range.offset + off, size: random.pick(&[1, page - off]) };
    dat.length += page_size as usize;
    made("alignment", &dat, (off > 0).then_some(Refusal::BadRange))
}

/// A range that starts where the header ends, or on the page's start one byte, or more, before that.
fn before_header_end(random: &mut Random) -> Made {
    let beyond = random.pick(&[0, 0, 1, 2, 17]);
    let mut dat = Dat::ending_at(random, beyond, &[0, 1, 0]);
    let end = dat.header().bytes.len() as u64;
    let start = if beyond == 0 && random.one_in(3) { 0 } else { end - beyond as u64 };
    dat.ranges()[1] = Range { offset: start, size: 1 + random.below(1_024) as u64 };
    dat.length = end as usize + 1_024;
    made("header's end", &dat, (start < end).then_some(Refusal::BadRange))
}

/// A file that ends with its last range, or one byte earlier.
fn past_file_end(random: &mut Random) -> Made {
    let mut dat = with_cpus(random);
    let end = dat.ranges().iter().filter(|range| range.size > 0).map(|range| range.offset + range.size).max();
    let short = random.below(2);
    dat.length = end.expect("a range") as usize - short;
    made("file's end", &dat, (short > 0).then_some(Refusal::BadRange))
}

/// A range whose end is beyond what 64 bits hold, or only just not; one that starts in the file but for a high bit.
fn wrapping_range(random: &mut Random) -> Made {
    let mut dat = with_cpus(random);
    let cpu = held_cpu(random, &mut dat);
    let start = dat.ranges()[cpu].offset;
    let top = PAGE.wrapping_neg();
    let (offset, size) = random.pick(&[
        (4_096_u64.wrapping_neg(), 8_192),
        (top, 2 * PAGE),
        (top, PAGE),
        (top, PAGE + 1),
        (top, PAGE - 1),
        (top, u64::MAX),
        (start, u64::MAX),
        (start, start.wrapping_neg()),
        (start, start.wrapping_neg() + 1),
        (1 << 63, 1 << 63),
        (start + (1 << 32), 1),
        (start + (1 << 63), 1),
    ]);
    dat.ranges()[cpu] = Range { offset, size };
    made("wrapping range", &dat, Some(Refusal::BadRange))
}

/// Ranges that touch, and one made longer by one byte, equal to another, or over all.
fn overlap(random: &mut Random) -> Made {
    let mut dat = with_cpus(random);
    let mut held: Vec<_> = (0..dat.ranges().len()).filter(|&cpu| dat.ranges()[cpu].size > 0).collect();
    held.sort_by_key(|&cpu| dat.ranges()[cpu].offset);
    for &cpu in &held {
        dat.ranges()[cpu].size = PAGE;
    }
    dat.length += PAGE as usize;
    let one = random.below(held.len() - 1);
    let (cpu, last) = (held[one], held[held.len() - 1]);
    let end = dat.ranges()[last].offset + PAGE;
    let shape = random.below(5);
    let start = dat.ranges()[cpu].offset;
    dat.ranges()[cpu] = match shape {
        0 => Range { offset: start, size: PAGE },
        1 => Range { offset: start, size: PAGE + 1 },
        2 => dat.ranges()[last],
        3 => Range { offset: start, size: end - start },
        _ => Range { offset: dat.ranges()[last].offset, size: 1 },
    };
    made("overlap", &dat, (shape > 0).then_some(Refusal::RangesOverlap))
}

/// Ranges of up to 160 units of 1,024 bytes that touch, in the order of their offsets or in any; and one made longer, or the next one moved
/// into it. Often left out, for their size.
fn long_ranges(random: &mut Random) -> Made {
    if random.one_in(2) {
        return overlap(random);
    }
    let page_size = random.pick(&PAGE_SIZES);
    let page = u64::from(page_size);
    let mut dat = Dat::sections(random, page_size);
    let pages: Vec<_> = (0..3).map(|_| 1 + random.below(160 * 1_024 / page_size as usize) as u64).collect();
    dat.lay_out(random, &pages);
    if random.one_in(2) {
        dat.ranges().sort_by_key(|range| range.offset);
    }
    dat.ranges().iter_mut().for_each(|range| range.size = range.size.next_multiple_of(page));
    dat.length += page_size as usize;
    let mut held = [0, 1, 2];
    held.sort_by_key(|&cpu| dat.ranges()[cpu].offset);
    let one = random.below(2);
    let (cpu, next) = (held[one], held[one + 1]);
    let (range, behind) = (dat.ranges()[cpu], dat.ranges()[next]);
    let within = random.below((range.size / page) as usize) as u64 * page;
    let shape = random.pick(&[0, 0, 1, 2, 3]);
    match shape {
        0 => {}
        1 => dat.ranges()[cpu].size += 1,
        2 => dat.ranges()[cpu].size += 1 + random.below(behind.size as usize) as u64,
        _ => dat.ranges()[next] = Range { offset: range.offset + within, size: 1 },
    }
    made("long ranges", &dat, (shape > 0).then_some(Refusal::RangesOverlap))
}

/// Ranges that overlap, and a later or earlier one that is misaligned, which comes first.
fn misaligned_and_overlapping(random: &mut Random) -> Made {
    let mut dat = with_cpus(random);
    let count = dat.ranges().len();
    let held = held_cpu(random, &mut dat);
    let range = dat.ranges()[held];
    dat.ranges()[count - 2] = range;
    dat.ranges()[count - 1] = range;
    let wrong = random.one_in(2);
    if wrong {
        let cpu = held_cpu(random, &mut dat);
        dat.ranges()[cpu].offset += 1;
        dat.ranges()[cpu].size = 1;
    }
    // Where the range stood among the last two already, two equal ones remain.
    made("two faults", &dat, Some(if wrong { Refusal::BadRange } else { Refusal::RangesOverlap }))
}

/// Ranges of size 0 at any offset, inside others too.
fn empty_ranges(random: &mut Random) -> Made {
    let mut dat = with_cpus(random);
    let cpu = held_cpu(random, &mut dat);
    let inside = dat.ranges()[cpu].offset;
    for range in dat.ranges().iter_mut().filter(|range| range.size == 0) {
        range.offset = wild(random, inside);
    }
    made("empty ranges", &dat, None)
}

/// As many CPUs as may be, all holding something; mostly left out, for their size.
fn many_cpus(random: &mut Random) -> Made {
    if !random.one_in(60) {
        return overlap(random);
    }
    let mut dat = Dat::sections(random, PAGE as u32);
    dat.lay_out(random, &[1; 1_024]);
    let overlapping = random.one_in(2);
    if overlapping {
        let lowest = (0..1_024).min_by_key(|&cpu| dat.ranges()[cpu].offset).expect("a CPU");
        dat.ranges()[lowest].size = PAGE + 1;
    }
    made("many CPUs", &dat, overlapping.then_some(Refusal::RangesOverlap))
}
