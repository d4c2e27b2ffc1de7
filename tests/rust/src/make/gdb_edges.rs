//! GDB traces at both sides of each edge of the rules, each with the refusal that its making settles.

use super::gdb::{block, memory, memory_at, register_line, registers, text, variable, Frame, Trace, END_MARK, HEAD};
use super::{Made, Random};
use crate::c::Settings;
use crate::second::Refusal;

/// A maker of traces at one edge, to be read with these settings.
pub(super) type Edge = fn(&mut Random, Settings) -> Made;

pub const EDGES: [Edge; 18] = [
    head,
    no_empty_line,
    repeated_line,
    unended_line,
    tail,
    end_mark,
    bad_mark,
    number_zero,
    size_past_file,
    bad_letter,
    short_memory,
    short_variable,
    short_registers,
    no_register_size,
    fault_in_the_earlier_frame,
    bad_line_before_no_end,
    several_blocks_of_a_kind,
    largest_blocks,
];

pub(super) const ACCEPTED: Option<u8> = Some(0);

pub(super) fn refused(refusal: Refusal) -> Option<u8> {
    Some(refusal as u8)
}

/// The refusal where the fault is there, else acceptance.
pub(super) fn refused_if(fault: bool, refusal: Refusal) -> Option<u8> {
    Some(if fault { refusal as u8 } else { 0 })
}

fn any_size(random: &mut Random) -> Option<usize> {
    random.pick(&[None, Some(0), Some(1), Some(2), Some(8), Some(12), Some(40)])
}

fn any_trace(random: &mut Random, settings: Settings) -> Trace {
    let size = any_size(random);
    Trace::with(random, settings, size)
}

/// A trace with a frame in it, and the number of one of its frames.
pub(super) fn any_frame(random: &mut Random, settings: Settings, size: Option<usize>) -> (Trace, usize) {
    let trace = Trace::with_frames(random, settings, size);
    let n = random.below(trace.frames.len());
    (trace, n)
}

/// A head with a wrong byte, or cut short: also right after it.
fn head(random: &mut Random, settings: Settings) -> Made {
    let mut bytes = any_trace(random, settings).bytes();
    let place = random.below(HEAD.len() + 1);
    if random.one_in(2) {
        let whole = place == HEAD.len();
        let refusal = if whole { Refusal::NoEmptyLine } else { Refusal::BadHead };
        return Made::front("head cut", bytes, place, refused(refusal));
    }
    let place = place % HEAD.len();
    bytes[place] ^= 1 + random.byte() % 255;
    Made::new("head", bytes, refused(Refusal::BadHead))
}

/// A description that never ends, also where a carriage return stands for the empty line.
fn no_empty_line(random: &mut Random, settings: Settings) -> Made {
    let mut bytes = any_trace(random, settings).unclosed();
    let end: &[u8] = random.pick(&[b"", b"\r", b"\r\n", b" \n", b"tp", b"\0\n", b"\n"]);
    bytes.extend_from_slice(end);
    Made::new("no empty line", bytes, refused_if(end != b"\n", Refusal::NoEmptyLine))
}

/// A second line of a kind that stands once, or one that only looks like it.
fn repeated_line(random: &mut Random, settings: Settings) -> Made {
    let status = text(random);
    let mut trace = Trace::with(random, settings, Some(2));
    trace.lines.retain(|line| !line.starts_with(b"status "));
    trace.lines.push([b"status ", &status[..]].concat());
    let bad = random.one_in(2);
    let line: &[u8] = if bad {
        random.pick(&[b"R 2", b"R 3", b"R 02", b"R a", b"status ", b"status x"])
    } else {
        random.pick(&[b"R2", b"R\t2", b"R", b"status", b"status\t", b"Status x", b"tp ", b"tsv ", b"tdesc ", b"r 2"])
    };
    let place = random.below(trace.lines.len() + 1);
    trace.lines.insert(place, line.to_vec());
    Made::new("repeated line", trace.bytes(), refused_if(bad, Refusal::BadLine))
}

/// What is not ended is no line, so it cannot be a bad or a second one.
fn unended_line(random: &mut Random, settings: Settings) -> Made {
    let mut bytes = Trace::with(random, settings, Some(1)).unclosed();
    let line: &[u8] = random.pick(&[b"R 2", b"R x", b"R ", b"status 1", b"R 99999"]);
    bytes.extend_from_slice(line);
    Made::new("unended line", bytes, refused(Refusal::NoEmptyLine))
}

/// The bytes of an unmarked trace. Its end is as often as not one that a mark is easily taken for or lost behind: the
/// bare opening, an empty frame, or data that end in zeros.
fn unmarked(random: &mut Random, settings: Settings) -> Vec<u8> {
    let mut trace = Trace { marked: false, ..any_trace(random, settings) };
    match random.below(6) {
        0 => trace.frames.clear(),
        1 => trace.frames.push(Frame { tracepoint: random.pick(&[1, 256]), ..Frame::of(Vec::new()) }),
        2 => trace.frames.push(Frame::of(vec![memory_at(settings.order, 0, &vec![0; random.below(9)])])),
        _ => {}
    }
    trace.bytes()
}

/// 1 to 5 bytes after the last frame, which do not begin with two zeros; 6 are a frame of size 0 where they say so.
fn tail(random: &mut Random, settings: Settings) -> Made {
    let mut bytes = unmarked(random, settings);
    let length = random.below(7);
    bytes.extend_from_slice(&no_mark(random, length));
    Made::new("tail", bytes, refused_if((1..=5).contains(&length), Refusal::ShortHead))
}

/// As many bytes, up to six, which do not begin with two zeros.
pub(super) fn no_mark(random: &mut Random, length: usize) -> Vec<u8> {
    let mut tail = if length == 6 || random.one_in(2) { vec![0; length] } else { random.bytes(length) };
    if tail.starts_with(&[0, 0]) {
        tail[random.below(2)] = 1;
    }
    tail
}

/// The end mark behind every sort of end, or none.
fn end_mark(random: &mut Random, settings: Settings) -> Made {
    let mut bytes = unmarked(random, settings);
    let mark: &[u8] = random.pick(&[b"", END_MARK, END_MARK]);
    bytes.extend_from_slice(mark);
    Made::new("end mark", bytes, ACCEPTED)
}

fn bad_mark(random: &mut Random, settings: Settings) -> Made {
    let mut bytes = unmarked(random, settings);
    bytes.extend_from_slice(&any_bad_mark(random));
    Made::new("bad end mark", bytes, refused(Refusal::BadMark))
}

/// Two zeros and not the end mark: cut short, with another byte in it, or with bytes behind it.
pub(super) fn any_bad_mark(random: &mut Random) -> Vec<u8> {
    let length = random.pick(&[2, 3, 4, 5, 5, 6, 7, 8, 10, 16]);
    let mut mark = vec![0; length];
    match random.below(3) {
        0 => mark[2..].copy_from_slice(&random.bytes(length - 2)),
        1 if length > 4 => mark[4..].copy_from_slice(&random.bytes(length - 4)),
        _ => {}
    }
    if mark == END_MARK {
        mark[2 + random.below(2)] = random.pick(&[1, 0xFF]);
    }
    mark
}

/// A frame of number 0 among the others, sound in itself or with any fault: its size past the file, or a bad block.
fn number_zero(random: &mut Random, settings: Settings) -> Made {
    let size = any_size(random);
    let (mut trace, n) = any_frame(random, settings, size);
    let frame = &mut trace.frames[n];
    frame.tracepoint = 0;
    match random.below(4) {
        0 => frame.size = Some(u32::MAX),
        1 => frame.blocks.push(vec![random.pick(b"xRMV")]),
        2 => frame.blocks.clear(),
        _ => {}
    }
    Made::new("number 0", trace.bytes(), refused(Refusal::BadMark))
}

/// A last frame whose size is right, or past the file by one or by far more; bad blocks in it do not matter then. Nor
/// does an end mark, which is data by that size.
fn size_past_file(random: &mut Random, settings: Settings) -> Made {
    let size = any_size(random);
    let (mut trace, _) = any_frame(random, settings, size);
    let mark = trace.mark().len();
    let last = trace.frames.last_mut().expect("a frame");
    let past = !random.one_in(3);
    if past {
        if random.one_in(2) {
            last.blocks.insert(0, random.bytes(3));
        }
        let size = (last.data().len() + mark) as u32;
        last.size = Some(random.pick(&[size + 1, size + 2, size + 256, size + 65_536, 1 << 31, u32::MAX]));
    }
    Made::new("size", trace.bytes(), refused_if(past, Refusal::DataPastFile))
}

/// A letter that is none, in any frame and between any blocks.
fn bad_letter(random: &mut Random, settings: Settings) -> Made {
    let size = any_size(random);
    let (mut trace, n) = any_frame(random, settings, size);
    let letter = random.pick(&[0, 0xFF, b'S', b'm', b'r', b'v', b'L', b'N', b'Q', b'T', b'U', b'W', b'\n', b' ']);
    let length = random.below(4);
    let blocks = &mut trace.frames[n].blocks;
    let place = random.below(blocks.len() + 1);
    blocks.insert(place, [&[letter], &random.bytes(length)[..]].concat());
    Made::new("letter", trace.bytes(), refused(Refusal::BadLetter))
}

/// Puts a block, whole or cut short, at the end of any frame.
fn cut_block(random: &mut Random, settings: Settings, size: Option<usize>, mut block: Vec<u8>) -> Made {
    let (mut trace, n) = any_frame(random, settings, size);
    let whole = block.len();
    block.truncate(if random.one_in(3) { whole } else { 1 + random.below(whole) });
    let short = block.len() < whole;
    if block[0] == b'R' {
        trace.frames[n].drop_registers();
    }
    trace.frames[n].blocks.push(block);
    Made::new("short block", trace.bytes(), refused_if(short, Refusal::BlockPastData))
}

fn short_memory(random: &mut Random, settings: Settings) -> Made {
    let size = any_size(random);
    let block = memory(random, settings.order);
    cut_block(random, settings, size, block)
}

fn short_variable(random: &mut Random, settings: Settings) -> Made {
    let size = any_size(random);
    let block = variable(random, settings.order);
    cut_block(random, settings, size, block)
}

fn short_registers(random: &mut Random, settings: Settings) -> Made {
    let size = random.pick(&[0, 1, 2, 3, 16, 255, 256, 257]);
    let block = registers(random, size);
    cut_block(random, settings, Some(size), block)
}

/// A register block where no R line was given, also as the last byte of its frame, and where lines only look like one.
fn no_register_size(random: &mut Random, settings: Settings) -> Made {
    let has_line = random.one_in(3);
    let size = random.below(4);
    let (mut trace, n) = any_frame(random, settings, has_line.then_some(size));
    if random.one_in(2) {
        trace.lines.push(format!("R{size}").into_bytes());
    }
    let block = registers(random, size);
    trace.frames[n].drop_registers();
    trace.frames[n].blocks.push(block);
    Made::new("no R line", trace.bytes(), refused_if(!has_line, Refusal::NoRegisterSize))
}

/// Two faults in two frames: the one that stands first decides, though the other is of a lower number or a bad mark.
fn fault_in_the_earlier_frame(random: &mut Random, settings: Settings) -> Made {
    let mut trace = Trace::with(random, settings, None);
    let memory = memory_at(settings.order, 1, b"ab");
    let faults: [(Vec<u8>, Refusal); 3] = [
        (vec![b'x'], Refusal::BadLetter),
        (memory[..12].to_vec(), Refusal::BlockPastData),
        (vec![b'R'], Refusal::NoRegisterSize),
    ];
    let (fault, refusal) = &faults[random.below(3)];
    let first = block(random, settings.order, None);
    trace.frames.push(Frame::of(vec![first, fault.clone()]));
    let (fault, _) = &faults[random.below(3)];
    let size = random.pick(&[None, Some(u32::MAX)]);
    trace.frames.push(Frame { tracepoint: random.pick(&[0, 1]), blocks: vec![fault.clone()], size });
    Made::new("two faults", trace.bytes(), refused(*refusal))
}

/// A bad line is met before the description's missing end.
fn bad_line_before_no_end(random: &mut Random, settings: Settings) -> Made {
    let mut trace = any_trace(random, settings);
    trace.lines.push(b"R x".to_vec());
    let mut bytes = trace.unclosed();
    bytes.extend_from_slice(&text(random));
    Made::new("bad line, no end", bytes, refused(Refusal::BadLine))
}

/// Blocks of one address or number several times beside one register block, and memory that runs on at address 0.
fn several_blocks_of_a_kind(random: &mut Random, settings: Settings) -> Made {
    let mut trace = Trace::with_frames(random, settings, Some(3));
    for frame in &mut trace.frames {
        let address = random.pick(&[u64::MAX, u64::MAX - 1, 0, 100]);
        frame.drop_registers();
        frame.blocks.push(registers(random, 3));
        for _ in 0..3 {
            let length = random.below(5);
            let bytes = random.bytes(length);
            frame.blocks.push(memory_at(settings.order, address.wrapping_sub(random.below(3) as u64), &bytes));
            frame.blocks.push(variable(random, settings.order));
        }
        random.shuffle(&mut frame.blocks);
    }
    Made::new("repeated blocks", trace.bytes(), ACCEPTED)
}

/// The largest register and memory blocks; mostly left out, for their size.
fn largest_blocks(random: &mut Random, settings: Settings) -> Made {
    if !random.one_in(50) {
        return several_blocks_of_a_kind(random, settings);
    }
    let mut trace = Trace { lines: vec![register_line(random, settings.base, 65_535)], ..Trace::bare(settings) };
    let memory = memory_at(settings.order, random.number(), &[b'R'; 65_535]);
    let mut blocks = vec![registers(random, 65_535), memory, variable(random, settings.order)];
    random.shuffle(&mut blocks);
    let short = random.one_in(2);
    if short {
        blocks.last_mut().expect("a block").pop();
    }
    trace.frames.push(Frame::of(blocks));
    Made::new("largest blocks", trace.bytes(), refused_if(short, Refusal::BlockPastData))
}
