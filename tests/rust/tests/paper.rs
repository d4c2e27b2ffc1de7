//! Document 01's own cases, "Both sides of each edge", those of requests C-11, C-13, C-14, C-18, C-19 and C-20, and
//! those of docs/DECISIONS.md, "How the papers are read", with values written out here. The second reader is held to
//! them first, then the library.

use tufakpeni_tests::answers::{Answer, SECOND};
use tufakpeni_tests::c::{
    Block, Count, CpuRange, Frame, FramePart, Length, Line, Mark, PairPart, Part, Place, Range, Selection, Settings,
    Value, ENDING_FLYRECORD, ENDING_LATENCY, LINE_OTHER, LINE_R, LINE_STATUS, LINE_TDESC, LINE_TP, LINE_TSV,
};
use tufakpeni_tests::library::LIBRARY;
use tufakpeni_tests::make::longest;
use tufakpeni_tests::reader::{fields, Reader};
use tufakpeni_tests::second::MAX_LENGTH;

#[path = "paper/base.rs"]
mod base;
#[path = "paper/partial.rs"]
mod partial;
#[path = "paper/registers.rs"]
mod registers;
#[path = "paper/tables.rs"]
mod tables;
#[path = "paper/variables.rs"]
mod variables;

/// Both byte orders in the default base, and the base that the paper's cases at 65,535 and 65,536 state.
const LITTLE: Settings = Settings { order: 0, base: 16 };
const BIG: Settings = Settings { order: 1, base: 16 };
const LITTLE_TEN: Settings = Settings { order: 0, base: 10 };
const BIG_TEN: Settings = Settings { order: 1, base: 10 };
const ALL: [Settings; 4] = [LITTLE, LITTLE_TEN, BIG, BIG_TEN];
const H: &[u8] = b"\x7fTRACE0\n";
/// The two-register case.
const TWO_REGISTERS: &[u8] = b"R 2\n\n\x01\0\x03\0\0\0R\xAA\xBB";
/// A frame of 13 bytes with two bytes of memory at the last address.
const TOP_MEMORY: &[u8] = b"\n\x01\0\x0D\0\0\0M\xFF\xFF\xFF\xFF\xFF\xFF\xFF\xFF\x02\0\x11\x22";
/// A frame of 13 bytes with variable 1, all bits of its value set.
const VARIABLE: &[u8] = b"\n\x01\0\x0D\0\0\0V\x01\0\0\0\xFF\xFF\xFF\xFF\xFF\xFF\xFF\xFF";

/// One to five bytes where a head should start.
const SHORT_HEADS: [&[u8]; 9] = [
    b"\x07",
    b"\x07\x07",
    b"\x07\x07\x01",
    b"\x01\0\0\0",
    b"\x07\x07\0\0\0",
    b"\0",
    b"\0\x01",
    b"\0\x01\0\0",
    b"\x07\0\0\0\0",
];
/// Two bytes of 0, and bad marks with bytes behind them and without.
const BAD_MARKS: [&[u8]; 10] = [
    b"\0\0",
    b"\0\0\0",
    b"\0\0\x01\0",
    b"\0\0\0\x01",
    b"\0\0\0\0\0",
    b"\0\0\0\0\0\0",
    b"\0\0\0\0\x07",
    b"\0\0\0\0\x01\0\0\0\0\0",
    b"\0\0\xFF\xFF\xFF\xFF",
    b"\0\0\0\0\0\0\x07\x07\0\0\0\0",
];

fn trace(rest: &[u8]) -> Vec<u8> {
    [H, rest].concat()
}

/// A frame's head in the byte order of the settings.
fn head(settings: Settings, number: u16, size: u32) -> Vec<u8> {
    match settings.order {
        0 => [&number.to_le_bytes()[..], &size.to_le_bytes()].concat(),
        _ => [&number.to_be_bytes()[..], &size.to_be_bytes()].concat(),
    }
}

/// A frame of number 7 with these data.
fn frame(settings: Settings, data: &[u8]) -> Vec<u8> {
    [&head(settings, 7, data.len() as u32), data].concat()
}

/// A trace with this description and a frame for each of these data.
fn with_frames(settings: Settings, lines: &[u8], frames: &[&[u8]]) -> Vec<u8> {
    let frames: Vec<_> = frames.iter().map(|data| frame(settings, data)).collect();
    trace(&[lines, b"\n", &frames.concat()].concat())
}

/// The refusal of a trace, 0 where it is accepted.
fn refusal(reader: &Reader, settings: Settings, rest: &[u8]) -> u8 {
    (reader.frame_count)(settings, &trace(rest)).refusal
}

/// This refusal and nothing else from every call about a trace, with every output as it was. The data of a frame are
/// refused with it for the first frame that is not answered.
fn every_call_refuses(reader: &Reader, settings: Settings, file: &[u8], refusal: u8) {
    let (mut records, mut out) = ([[7; 4]; 2], [0xEE; 64]);
    assert_eq!((reader.frame_count)(settings, file), Answer::refused(refusal));
    assert_eq!((reader.end_mark)(settings, file), Answer::refused(refusal));
    assert_eq!((reader.frame_table)(settings, file, &mut records), Answer::refused(refusal));
    assert_eq!((reader.line_place)(settings, file, 0), Answer::refused(refusal));
    let mut frames = (0..).map(|n| (reader.frame_place)(settings, file, n));
    assert_eq!(frames.find(|part| part.refusal != 0), Some(Answer::refused(refusal)));
    assert_eq!((reader.block_record)(settings, file, 0, 0), Answer::refused(refusal));
    assert_eq!((reader.registers_place)(settings, file, 0), Answer::refused(refusal));
    assert_eq!((reader.memory_place)(settings, file, 0, 0), Answer::refused(refusal));
    assert_eq!((reader.variable)(settings, file, 0, 0), Answer::refused(refusal));
    assert_eq!((reader.cut)(settings, file, Selection::default(), &mut out), Answer::refused(refusal));
    assert_eq!((reader.join)(settings, file, file, &mut out), Answer::refused(refusal));
    assert_eq!((reader.pair_place)(settings, file, file, 0), Answer::refused(refusal));
    assert_eq!((reader.pair_variable)(settings, file, file, 0, 0), Answer::refused(refusal));
    assert_eq!((records, out), ([[7; 4]; 2], [0xEE; 64]));
}

/// A little-endian trace.dat header with empty sections as far as the CPU count, for a page size of 4,096.
fn dat_front(cpus: u32) -> Vec<u8> {
    let mut bytes = b"\x17\x08\x44tracing6\0\0\x08\0\x10\0\0header_page\0".to_vec();
    bytes.extend_from_slice(&[0; 8]);
    bytes.extend_from_slice(b"header_event\0");
    bytes.extend_from_slice(&[0; 8 + 4 + 4 + 4 + 4 + 8]);
    bytes.extend_from_slice(&cpus.to_le_bytes());
    bytes
}

/// A flyrecord file of 12,288 bytes with these ranges.
fn dat_with(ranges: &[(u64, u64)]) -> Vec<u8> {
    let mut bytes = dat_front(ranges.len() as u32);
    bytes.extend_from_slice(b"flyrecord\0");
    for (offset, size) in ranges {
        bytes.extend_from_slice(&offset.to_le_bytes());
        bytes.extend_from_slice(&size.to_le_bytes());
    }
    bytes.resize(12_288, 0);
    bytes
}

fn heads_and_frames(reader: &Reader) {
    assert_eq!((reader.frame_count)(LITTLE, b"").refusal, 3);
    assert_eq!((reader.frame_count)(LITTLE, &H[..7]).refusal, 3);
    assert_eq!(refusal(reader, LITTLE, b""), 4);
    assert_eq!((reader.frame_count)(LITTLE, &trace(b"\n")), Count { refusal: 0, count: 0 });
    let one = trace(b"\n\x01\0\0\0\0\0");
    for (settings, tracepoint) in [(LITTLE, 1), (BIG, 256)] {
        let mut table = [[0; 4]];
        assert_eq!((reader.frame_table)(settings, &one, &mut table), Count { refusal: 0, count: 1 });
        assert_eq!(fields(&table[0]), Frame { tracepoint, place: 15, ..Frame::default() });
        assert_eq!((reader.frame_place)(settings, &one, 0), FramePart { refusal: 0, place: 15, length: 0, heads: 1 });
    }
    assert_eq!((reader.frame_count)(LITTLE, &one[..14]).refusal, 6);
    let no_order = Settings { order: 2, ..LITTLE };
    assert_eq!((reader.frame_count)(no_order, &one).refusal, 2);
    assert_eq!((reader.frame_count)(no_order, b"").refusal, 2);
    assert_eq!(refusal(reader, LITTLE, b"\n\x01\0\x01\0\0\0R"), 10);
    assert_eq!(refusal(reader, LITTLE, b"\n\x01\0\x01\0\0\0\0"), 8);
    assert_eq!(refusal(reader, LITTLE, b"\n\x01\0\x02\0\0\0R"), 7);
}

fn blocks(reader: &Reader, settings: Settings) {
    let registers = trace(TWO_REGISTERS);
    assert_eq!((reader.registers_place)(settings, &registers, 0), Place { refusal: 0, place: 20, length: 2 });
    assert_eq!(registers[20..], [0xAA, 0xBB]);
    assert_eq!(refusal(reader, settings, b"R 2\n\n\x01\0\x02\0\0\0R\xAA"), 9);
    let mut table = [[0; 4]];
    assert_eq!((reader.frame_table)(settings, &registers, &mut table), Count { refusal: 0, count: 1 });
    let row = Frame { tracepoint: 1, has_registers: 1, place: 19, size: 3, registers_place: 20 };
    assert_eq!(fields(&table[0]), row);
    let block = Block { letter: b'R', place: 19, ..Block::default() };
    assert_eq!((reader.block_record)(settings, &registers, 0, 0), block);
    assert_eq!((reader.block_record)(settings, &registers, 0, 1).refusal, 12);
    assert_eq!((reader.block_record)(settings, &registers, 1, 0).refusal, 12);
    let none = trace(b"R 0\n\n\x01\0\x01\0\0\0R");
    assert_eq!((reader.registers_place)(settings, &none, 0), Place { refusal: 0, place: 20, length: 0 });
}

fn memory_and_variables(reader: &Reader) {
    let memory = trace(TOP_MEMORY);
    let at = |address| (reader.memory_place)(LITTLE, &memory, 0, address);
    assert_eq!(at(u64::MAX), Place { refusal: 0, place: 26, length: 2 });
    assert_eq!(at(0), Place { refusal: 0, place: 27, length: 1 });
    assert_eq!(at(1).refusal, 12);
    assert_eq!(memory[26..], [0x11, 0x22]);
    let block = Block { letter: b'M', place: 15, address: u64::MAX, length: 2, ..Block::default() };
    assert_eq!((reader.block_record)(LITTLE, &memory, 0, 0), block);
    let variable = trace(VARIABLE);
    assert_eq!((reader.variable)(LITTLE, &variable, 0, 1), Value { refusal: 0, value: -1 });
    assert_eq!((reader.variable)(LITTLE, &variable, 0, 0).refusal, 12);
    let block = Block { letter: b'V', place: 15, number: 1, value: -1, ..Block::default() };
    assert_eq!((reader.block_record)(LITTLE, &variable, 0, 0), block);
    let empty = trace(b"\n\x01\0\x0B\0\0\0M\x05\0\0\0\0\0\0\0\0\0");
    assert_eq!((reader.memory_place)(LITTLE, &empty, 0, 5).refusal, 12);
}

/// A trace with this R line, and a frame of a register block of this size.
fn with_registers(line: &str, size: usize) -> Vec<u8> {
    let mut file = trace(line.as_bytes());
    file.extend_from_slice(b"\n\n\x01\0");
    file.extend_from_slice(&(1 + size as u32).to_le_bytes());
    file.push(b'R');
    file.resize(file.len() + size, b'M');
    file
}

/// Holds an R line to the size of a register block by it.
fn says(reader: &Reader, settings: Settings, line: &str, size: usize) {
    let file = with_registers(line, size);
    let place = file.len() - size;
    let registers = (reader.registers_place)(settings, &file, 0);
    assert_eq!(registers, Place { refusal: 0, place, length: size }, "{line:?} in base {}", settings.base);
}

/// Holds a description to 5, and to 4 where its last line is not ended.
fn bad_line(reader: &Reader, settings: Settings, line: &str) {
    let told = format!("{line:?} in base {}", settings.base);
    assert_eq!(refusal(reader, settings, format!("{line}\n\n").as_bytes()), 5, "{told}");
    assert_eq!(refusal(reader, settings, format!("{line}\n").as_bytes()), 5, "{told}, no empty line");
    assert_eq!(refusal(reader, settings, line.as_bytes()), 4, "{told}, not ended");
}

fn lines(reader: &Reader) {
    for (good, size) in [("R 65535", 65_535), ("R 00776", 776)] {
        says(reader, LITTLE_TEN, good, size);
    }
    for bad in ["R 65536", "R 99999", "R 000776"] {
        bad_line(reader, LITTLE_TEN, bad);
    }
    for settings in [LITTLE, LITTLE_TEN] {
        says(reader, settings, "R 0", 0);
        for bad in ["R ", "R x", "R 1 ", "R 1\r", "R 1\nR 1", "status 1\nstatus 2"] {
            bad_line(reader, settings, bad);
        }
        kinds(reader, settings);
    }
}

fn kinds(reader: &Reader, settings: Settings) {
    let file = trace(b"R 1\nR8\nstatus x\nstatus\ntp \ntsv a\ntdesc <\ntp\n\r\n\n");
    let kinds = [LINE_R, LINE_OTHER, LINE_STATUS, LINE_OTHER, LINE_TP, LINE_TSV, LINE_TDESC, LINE_OTHER, LINE_OTHER];
    for (j, kind) in kinds.into_iter().enumerate() {
        assert_eq!((reader.line_place)(settings, &file, j).kind, kind, "line {j}");
    }
    assert_eq!((reader.line_place)(settings, &file, 1), Line { refusal: 0, kind: LINE_OTHER, place: 12, length: 2 });
    assert_eq!((reader.line_place)(settings, &file, 9).refusal, 12);
    assert_eq!(refusal(reader, settings, b"R8\n\n\x01\0\x01\0\0\0R"), 10);
}

fn edits(reader: &Reader) {
    let file = trace(b"\n\x01\0\0\0\0\0\x02\0\x0D\0\0\0V\x07\0\0\0\x2A\0\0\0\0\0\0\0\x01\0\0\0\0\0");
    let mut selection = Selection { count: 1, keep: 1, ..Selection::default() };
    selection.ranges[0] = Range { low: 1, high: 1 };
    let mut out = [0xEE; 24];
    assert_eq!((reader.cut)(LITTLE, &file, selection, &mut out), Length { refusal: 0, length: 21 });
    assert_eq!(out[..], [&trace(b"\n\x01\0\0\0\0\0\x01\0\0\0\0\0")[..], b"\xEE\xEE\xEE"].concat());
    assert_eq!((reader.cut)(LITTLE, &file, selection, &mut [0; 20]).refusal, 11);
    let opposite = (reader.opposite)(selection);
    assert_eq!((reader.cut)(LITTLE, &file, opposite, &mut [0; 28]), Length { refusal: 0, length: 28 });
    for (count, ranges, refusal) in [(8, 0, 0), (9, 0, 2), (0, 1, 0), (1, 1, 2)] {
        let range = Range { low: ranges, high: 0 };
        let selection = Selection { ranges: [range; 8], count, keep: 0 };
        assert_eq!((reader.cut)(LITTLE, &file, selection, &mut [0; 64]).refusal, refusal, "{count} of {range:?}");
    }
    let mut out = [0; 71];
    assert_eq!((reader.join)(LITTLE, &file, &file, &mut out), Length { refusal: 0, length: 71 });
    assert_eq!(out[..], [&file[..], &file[9..]].concat());
    assert_eq!((reader.join)(LITTLE, &file, &file, &mut [0; 70]).refusal, 11);
    assert_eq!((reader.join)(LITTLE, &file, &trace(b"x\n\n"), &mut out).refusal, 13);
    let of_second = PairPart { refusal: 0, trace: 1, place: 21, length: 13 };
    assert_eq!((reader.pair_place)(LITTLE, &file, &file, 4), of_second);
    assert_eq!((reader.pair_variable)(LITTLE, &file, &file, 4, 7), Value { refusal: 0, value: 42 });
    assert_eq!((reader.pair_place)(LITTLE, &file, &file, 6).refusal, 12);
}

/// Every question goes by the same reading, so one call's refusal is the file's.
fn end_marks(reader: &Reader) {
    let fronts: [(&[u8], usize); 4] = [
        (b"\n", 0),
        (b"\n\x01\0\0\0\0\0", 1),
        (b"\n\x01\0\x0B\0\0\0M\0\0\0\0\0\0\0\0\0\0", 1),
        (b"\n\x01\x01\0\0\0\0\0\x01\0\0\0\0", 2),
    ];
    for (front, frames) in fronts {
        for (tail, marked) in [(&b""[..], 0), (b"\0\0\0\0", 1)] {
            let file = trace(&[front, tail].concat());
            assert_eq!((reader.frame_count)(LITTLE, &file), Count { refusal: 0, count: frames }, "{file:?}");
            assert_eq!((reader.end_mark)(LITTLE, &file), Mark { refusal: 0, marked }, "{file:?}");
        }
        for (tails, refusal) in [(&SHORT_HEADS[..], 6), (&BAD_MARKS, 18)] {
            for tail in tails {
                let file = trace(&[front, tail].concat());
                assert_eq!((reader.end_mark)(LITTLE, &file), Mark { refusal, marked: 0 }, "{file:?}");
            }
        }
    }
    numbers_with_a_zero_byte(reader);
}

/// 256 in either order is a frame's number; so is 1, and 0 is none.
fn numbers_with_a_zero_byte(reader: &Reader) {
    for (settings, head, tracepoint) in [
        (LITTLE, b"\n\0\x01\0\0\0\0", 256),
        (BIG, b"\n\x01\0\0\0\0\0", 256),
        (LITTLE, b"\n\x01\0\0\0\0\0", 1),
        (BIG, b"\n\0\x01\0\0\0\0", 1),
    ] {
        for (mark, marked) in [(&b""[..], 0), (b"\0\0\0\0", 1)] {
            let file = trace(&[head, mark].concat());
            let mut table = [[0; 4]];
            assert_eq!((reader.frame_table)(settings, &file, &mut table), Count { refusal: 0, count: 1 });
            assert_eq!(fields(&table[0]), Frame { tracepoint, place: 15, ..Frame::default() });
            assert_eq!((reader.end_mark)(settings, &file), Mark { refusal: 0, marked });
        }
    }
    for settings in [LITTLE, BIG] {
        assert_eq!((reader.frame_count)(settings, &trace(b"\n\0\0\0\0\0\0")).refusal, 18);
    }
}

/// A cut keeps the mark, and 0 may be named; a join has one mark at the end where either trace has one.
fn marked_edits(reader: &Reader) {
    let [frame, mark] = [&b"\x01\0\x0D\0\0\0V\x07\0\0\0\x2A\0\0\0\0\0\0\0"[..], b"\0\0\0\0"];
    let of = |parts: &[&[u8]]| [H, b"\n", &parts.concat()].concat();
    let keeping = |low, high| Selection { ranges: [Range { low, high }; 8], count: 1, keep: 1 };
    for (selection, kept) in [(keeping(1, 1), frame), (keeping(0, 0), b""), (keeping(0, 1), frame)] {
        let cut = of(&[kept, mark]);
        edited(&cut, |out| (reader.cut)(LITTLE, &of(&[frame, mark]), selection, out));
    }
    for (first, second) in [(&b""[..], &b""[..]), (b"", mark), (mark, b""), (mark, mark)] {
        let [one, other] = [of(&[frame, first]), of(&[frame, second])];
        let end = if first.is_empty() { second } else { first };
        edited(&of(&[frame, frame, end]), |out| (reader.join)(LITTLE, &one, &other, out));
        let of_second = PairPart { refusal: 0, trace: 1, place: 15, length: 13 };
        assert_eq!((reader.pair_place)(LITTLE, &one, &other, 1), of_second);
        assert_eq!((reader.pair_variable)(LITTLE, &one, &other, 1, 7), Value { refusal: 0, value: 42 });
        assert_eq!((reader.pair_place)(LITTLE, &one, &other, 2).refusal, 12);
    }
    for bad in [&b"\0\0"[..], b"\0\0\0\0\0", b"\0\0\x01\0"] {
        let [good, bad] = [of(&[frame, mark]), of(&[frame, bad])];
        assert_eq!((reader.join)(LITTLE, &bad, &good, &mut [0; 99]).refusal, 18);
        assert_eq!((reader.pair_place)(LITTLE, &good, &bad, 0).refusal, 18);
    }
}

/// Holds a cut or join to its result in an output with room to spare, one that it fills, and one a byte too short.
fn edited(result: &[u8], edit: impl Fn(&mut [u8]) -> Length) {
    for spare in [3, 0] {
        let mut out = vec![0xEE; result.len() + spare];
        assert_eq!(edit(&mut out), Length { refusal: 0, length: result.len() });
        assert_eq!(out, [result, &vec![0xEE; spare]].concat());
    }
    let mut out = vec![0xEE; result.len() - 1];
    assert_eq!(edit(&mut out), Length { refusal: 11, length: 0 });
    assert_eq!(out, vec![0xEE; result.len() - 1]);
}

fn dat_headers(reader: &Reader) {
    let bare = [&dat_front(0)[..], b"flyrecord\0"].concat();
    assert_eq!(bare.len(), 97);
    let summary = (reader.dat_read)(&bare);
    assert_eq!((summary.refusal, summary.page_size, summary.ending), (0, 4_096, ENDING_FLYRECORD));
    assert_eq!(summary.header_page, Part { place: 38, size: 0 });
    assert_eq!(summary.header_event, Part { place: 59, size: 0 });
    assert_eq!(summary.formats, Part { place: 63, size: 0 });
    assert_eq!(summary.systems, Part { place: 67, size: 0 });
    assert_eq!(summary.kallsyms, Part { place: 71, size: 0 });
    assert_eq!(summary.printk, Part { place: 75, size: 0 });
    assert_eq!(summary.processes, Part { place: 83, size: 0 });
    assert_eq!(summary.options, Part { place: 0, size: 0 });
    assert_eq!(summary.body, Part { place: 97, size: 0 });
    assert_eq!((reader.dat_read)(&bare[..96]).refusal, 14);
    let text = [&dat_front(1_024)[..], b"options  \0\0\0latency  \0text"].concat();
    let summary = (reader.dat_read)(&text);
    assert_eq!((summary.refusal, summary.cpu_count, summary.ending), (0, 1_024, ENDING_LATENCY));
    assert_eq!(summary.options, Part { place: 97, size: 2 });
    assert_eq!(summary.body, Part { place: 109, size: 4 });
    assert_eq!((reader.dat_cpu_range)(&text, 0).refusal, 12);
    assert_eq!((reader.dat_read)(&dat_front(1_025)).refusal, 16);
    assert_eq!((reader.dat_read)(&dat_front(1_024)).refusal, 14);
    let twice = [&dat_front(0)[..], b"options  \0\0\0options  \0\0\0flyrecord\0"].concat();
    assert_eq!((reader.dat_read)(&twice).refusal, 15);
    assert_eq!((reader.dat_read)(b"\x17\x08\x44xxx").refusal, 14);
    assert_eq!((reader.dat_read)(b"\x17\x08\x44Tracing").refusal, 15);
    assert_eq!((reader.dat_read)(b"\x17\x08\x44tracing7\0").refusal, 15);
}

fn dat_ranges(reader: &Reader) {
    let refusal = |ranges: &[(u64, u64)]| (reader.dat_read)(&dat_with(ranges)).refusal;
    let top = 4_096_u64.wrapping_neg();
    assert_eq!(refusal(&[(4_096, 4_096), (8_192, 4_096)]), 0);
    assert_eq!(refusal(&[(4_096, 8_192)]), 0);
    assert_eq!(refusal(&[(4_096, 8_193)]), 16);
    assert_eq!(refusal(&[(top, 8_192)]), 16);
    assert_eq!(refusal(&[(4_097, 1)]), 16);
    assert_eq!(refusal(&[(0, 1)]), 16);
    assert_eq!(refusal(&[(4_096, 4_097), (top, 0), (8_192, 1)]), 17);
    assert_eq!(refusal(&[(4_096, 4_097), (8_192, 1), (4_097, 1)]), 16);
    let stored = CpuRange { refusal: 0, offset: top, size: 0 };
    assert_eq!((reader.dat_cpu_range)(&dat_with(&[(4_096, 1), (top, 0)]), 1), stored);
    assert_eq!((reader.dat_cpu_range)(&dat_with(&[(4_096, 1), (top, 0)]), 2).refusal, 12);
}

fn longest_files(reader: &Reader) {
    let bare = [&dat_front(0)[..], b"flyrecord\0"].concat();
    assert_eq!((reader.dat_read)(&longest::filled(bare.clone(), 0)).refusal, 0);
    assert_eq!((reader.dat_read)(&longest::filled(bare, 1)).refusal, 1);
    let long = longest::filled(Vec::new(), 1);
    assert_eq!((reader.frame_count)(LITTLE, &long).refusal, 1);
    assert_eq!((reader.frame_count)(LITTLE, &long[1..]).refusal, 3);
    assert_eq!((reader.frame_count)(Settings { order: 2, ..LITTLE }, &long).refusal, 2);
    assert_eq!((reader.frame_count)(Settings { base: 8, ..LITTLE }, &long).refusal, 2);
    for (length, refusal) in [(MAX_LENGTH, 0), (MAX_LENGTH + 1, 1)] {
        let marked = u8::from(refusal == 0);
        assert_eq!((reader.end_mark)(LITTLE, &longest::trace(LITTLE, true, length)), Mark { refusal, marked });
    }
}

fn all(reader: &Reader) {
    heads_and_frames(reader);
    blocks(reader, LITTLE);
    blocks(reader, LITTLE_TEN);
    memory_and_variables(reader);
    lines(reader);
    edits(reader);
    end_marks(reader);
    marked_edits(reader);
    base::all(reader);
    partial::all(reader);
    registers::all(reader);
    tables::all(reader);
    variables::all(reader);
    dat_headers(reader);
    dat_ranges(reader);
    longest_files(reader);
}

#[test]
fn the_second_reader_keeps_the_rules() {
    all(&SECOND);
}

#[test]
fn the_library_keeps_the_rules() {
    all(&LIBRARY);
}
