//! GDB traces with two register blocks in a frame, and such as are easily taken for them, each with the refusal that its
//! making settles.

use super::gdb::{block, memory_at, registers, variable, Frame, Trace};
use super::gdb_edges::{any_frame, refused, refused_if, Edge, ACCEPTED};
use super::size_edges::second_in_one_base;
use super::{put_at, Made, Random};
use crate::c::Settings;
use crate::second::Refusal;
use std::ops::Range;

pub const EDGES: [Edge; 18] = [
    side_by_side,
    with_blocks_between,
    three_or_more,
    short_second,
    bad_letter_behind,
    bad_letter_ahead,
    long_memory_between,
    letters_alone,
    no_line,
    fault_in_an_earlier_frame,
    fault_in_a_later_frame,
    past_file,
    one_in_each_frame,
    bytes_like_letters,
    border,
    at_file_end,
    // Twice, since each file of it is telling in one base only.
    second_in_one_base,
    second_in_one_base,
];

/// What no block starts with.
pub(super) const BAD_LETTERS: &[u8] = b"rQSmv\0\xFF";

/// A register size, mostly one that both bases spell alike.
fn any_size(random: &mut Random) -> usize {
    random.pick(&[0, 1, 1, 2, 2, 3, 5, 8, 9, 12, 40, 171])
}

/// Blocks of other kinds, as many as one of these numbers.
pub(super) fn others(random: &mut Random, order: u8, counts: Range<usize>) -> Vec<Vec<u8>> {
    let count = counts.start + random.below(counts.len());
    (0..count).map(|_| block(random, order, None)).collect()
}

/// A trace whose frame n has these blocks in place of its own, and blocks of other kinds before them.
fn with_blocks(random: &mut Random, settings: Settings, size: Option<usize>, blocks: &[Vec<u8>]) -> (Trace, usize) {
    let (mut trace, n) = any_frame(random, settings, size);
    let before = others(random, settings.order, 0..3);
    trace.frames[n].blocks = [&before, blocks].concat();
    (trace, n)
}

/// A register block, some of other kinds, and a second register block.
pub(super) fn two(random: &mut Random, order: u8, size: usize, between: Vec<Vec<u8>>) -> Vec<Vec<u8>> {
    let [first, second] = [registers(random, size), registers(random, size)];
    [vec![first], between, vec![second], others(random, order, 0..3)].concat()
}

fn made(name: &'static str, trace: &Trace, refusal: Refusal) -> Made {
    Made::new(name, trace.bytes(), refused(refusal))
}

fn side_by_side(random: &mut Random, settings: Settings) -> Made {
    let size = any_size(random);
    let blocks = two(random, settings.order, size, Vec::new());
    let (trace, _) = with_blocks(random, settings, Some(size), &blocks);
    made("two side by side", &trace, Refusal::SecondRegisters)
}

fn with_blocks_between(random: &mut Random, settings: Settings) -> Made {
    let size = any_size(random);
    let between = others(random, settings.order, 1..4);
    let blocks = two(random, settings.order, size, between);
    let (trace, _) = with_blocks(random, settings, Some(size), &blocks);
    made("two apart", &trace, Refusal::SecondRegisters)
}

fn three_or_more(random: &mut Random, settings: Settings) -> Made {
    let size = any_size(random);
    let mut blocks = others(random, settings.order, 0..3);
    for _ in 0..random.pick(&[3, 3, 4, 7]) {
        blocks.push(registers(random, size));
    }
    random.shuffle(&mut blocks);
    let (trace, _) = with_blocks(random, settings, Some(size), &blocks);
    made("three or more", &trace, Refusal::SecondRegisters)
}

/// A second block that does not fit, at the end of its frame: also its letter alone, and all but its last byte.
fn short_second(random: &mut Random, settings: Settings) -> Made {
    let size = any_size(random).max(1);
    let mut blocks = vec![registers(random, size)];
    blocks.extend(others(random, settings.order, 0..2));
    let mut second = registers(random, size);
    let within = 1 + random.below(size);
    second.truncate(random.pick(&[1, within, size]));
    blocks.push(second);
    let (trace, _) = with_blocks(random, settings, Some(size), &blocks);
    made("short second", &trace, Refusal::SecondRegisters)
}

/// A bad letter behind the second block, where it is not reached.
fn bad_letter_behind(random: &mut Random, settings: Settings) -> Made {
    let size = any_size(random);
    let between = others(random, settings.order, 0..2);
    let mut blocks = two(random, settings.order, size, between);
    blocks.push(vec![random.pick(BAD_LETTERS)]);
    let (trace, _) = with_blocks(random, settings, Some(size), &blocks);
    made("bad letter behind", &trace, Refusal::SecondRegisters)
}

/// A bad letter right before the second block, or the first.
fn bad_letter_ahead(random: &mut Random, settings: Settings) -> Made {
    let size = any_size(random);
    let mut blocks = two(random, settings.order, size, Vec::new());
    blocks.insert(random.pick(&[0, 1, 1, 1]), vec![random.pick(BAD_LETTERS)]);
    let (trace, _) = with_blocks(random, settings, Some(size), &blocks);
    made("bad letter ahead", &trace, Refusal::BadLetter)
}

/// A memory block between the two that says more than there is: what stands behind it is no block.
fn long_memory_between(random: &mut Random, settings: Settings) -> Made {
    let (size, order) = (any_size(random), settings.order);
    let mut memory = memory_at(order, random.number(), b"");
    put_at(&mut memory, 9, order, 2, 65_535);
    let blocks = two(random, order, size, vec![memory]);
    let (trace, _) = with_blocks(random, settings, Some(size), &blocks);
    made("long memory between", &trace, Refusal::BlockPastData)
}

/// Register blocks of no bytes: one is sound, two are not.
fn letters_alone(random: &mut Random, settings: Settings) -> Made {
    let mut blocks = others(random, settings.order, 0..3);
    let count = random.pick(&[1, 2, 2, 3]);
    blocks.extend(vec![b"R".to_vec(); count]);
    random.shuffle(&mut blocks);
    let (trace, _) = with_blocks(random, settings, Some(0), &blocks);
    Made::new("letters alone", trace.bytes(), refused_if(count > 1, Refusal::SecondRegisters))
}

/// Two register blocks where no R line was given, which the first one shows already.
fn no_line(random: &mut Random, settings: Settings) -> Made {
    let size = random.pick(&[0, 0, 0, 1, 8]);
    let blocks = two(random, settings.order, size, Vec::new());
    let (trace, _) = with_blocks(random, settings, None, &blocks);
    made("two without R line", &trace, Refusal::NoRegisterSize)
}

/// A frame with a fault that is no second register block, and its refusal.
pub(super) fn faulty(random: &mut Random, order: u8) -> (Frame, Refusal) {
    let empty = Frame::of(Vec::new());
    match random.below(6) {
        0 | 1 => (Frame::of(vec![vec![random.pick(BAD_LETTERS)]]), Refusal::BadLetter),
        2 | 3 => {
            let mut short = variable(random, order);
            short.truncate(random.pick(&[1, 5, 12]));
            (Frame::of(vec![short]), Refusal::BlockPastData)
        }
        4 => (Frame { size: Some(u32::MAX), ..empty }, Refusal::DataPastFile),
        _ => (Frame { tracepoint: 0, ..empty }, Refusal::BadMark),
    }
}

/// A fault, and two register blocks in a later frame.
fn fault_in_an_earlier_frame(random: &mut Random, settings: Settings) -> Made {
    let size = any_size(random);
    let blocks = two(random, settings.order, size, Vec::new());
    let (mut trace, n) = with_blocks(random, settings, Some(size), &blocks);
    let (fault, refusal) = faulty(random, settings.order);
    trace.frames.insert(random.below(n + 1), fault);
    made("fault in an earlier frame", &trace, refusal)
}

/// Two register blocks, and another fault in a later frame.
fn fault_in_a_later_frame(random: &mut Random, settings: Settings) -> Made {
    let size = any_size(random);
    let blocks = two(random, settings.order, size, Vec::new());
    let (mut trace, n) = with_blocks(random, settings, Some(size), &blocks);
    let (fault, _) = faulty(random, settings.order);
    let later = n + 1 + random.below(trace.frames.len() - n);
    trace.frames.insert(later, fault);
    made("fault in a later frame", &trace, Refusal::SecondRegisters)
}

/// Two register blocks in a frame whose size is past the file, or which has the number 0.
fn past_file(random: &mut Random, settings: Settings) -> Made {
    let size = any_size(random);
    let blocks = two(random, settings.order, size, Vec::new());
    let (mut trace, n) = with_blocks(random, settings, Some(size), &blocks);
    let frame = &mut trace.frames[n];
    let refusal = if random.one_in(4) {
        frame.tracepoint = 0;
        Refusal::BadMark
    } else {
        frame.size = Some(random.pick(&[1 << 24, u32::MAX]));
        Refusal::DataPastFile
    };
    made("two blocks past the file", &trace, refusal)
}

/// A register block in each of two to five frames one behind the other, at any place among the blocks of each.
fn one_in_each_frame(random: &mut Random, settings: Settings) -> Made {
    let size = any_size(random);
    let mut trace = Trace::with(random, settings, Some(size));
    for _ in 0..random.pick(&[2, 2, 3, 5]) {
        let mut blocks = others(random, settings.order, 0..3);
        blocks.push(registers(random, size));
        random.shuffle(&mut blocks);
        trace.frames.push(Frame::of(blocks));
    }
    Made::new("one in each frame", trace.bytes(), ACCEPTED)
}

/// One register block among memory and a variable, with every byte of them a register block's letter.
fn bytes_like_letters(random: &mut Random, settings: Settings) -> Made {
    const LETTERS: u64 = 0x5252_5252_5252_5252;
    let size = any_size(random).max(2);
    let (mut trace, n) = any_frame(random, settings, Some(size));
    let length = random.pick(&[2, 3, 8, 0x52]);
    let mut variable = vec![b'R'; 13];
    variable[0] = b'V';
    let mut blocks = vec![vec![b'R'; 1 + size], memory_at(settings.order, LETTERS, &vec![b'R'; length]), variable];
    random.shuffle(&mut blocks);
    trace.frames[n] = Frame { tracepoint: 0x5252, blocks, size: None };
    Made::new("bytes like letters", trace.bytes(), ACCEPTED)
}

/// A frame that ends with its register block, and behind it one whose head or whose first block begins with the letter.
fn border(random: &mut Random, settings: Settings) -> Made {
    let size = any_size(random);
    let mut trace = Trace::with(random, settings, Some(size));
    let mut first = Frame::of(others(random, settings.order, 0..3));
    first.blocks.push(registers(random, size));
    let mut behind = Frame::of(vec![registers(random, size)]);
    behind.blocks.extend(others(random, settings.order, 0..3));
    behind.tracepoint = random.pick(&[1, 0x5252, 0x0152, 0x5201]);
    trace.frames.extend([first, behind]);
    Made::new("border", trace.bytes(), ACCEPTED)
}

/// A register block behind which the file ends, mostly one of no bytes: its place is then the file's length.
fn at_file_end(random: &mut Random, settings: Settings) -> Made {
    let size = random.pick(&[0, 0, 0, 1, 8]);
    let mut trace = Trace::with(random, settings, Some(size));
    let mut last = Frame::of(others(random, settings.order, 0..3));
    last.blocks.push(registers(random, size));
    trace.frames.push(last);
    trace.marked = false;
    Made::new("registers at the file's end", trace.bytes(), ACCEPTED)
}
