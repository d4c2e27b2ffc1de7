//! GDB traces whose frames have a variable once, several times, or not at all, with bytes that look like a block of it.

use super::gdb::{block, memory_at, variable_of, Frame, Trace};
use super::gdb_edges::{any_frame, Edge, ACCEPTED};
use super::{Made, Random};
use crate::c::Settings;
use crate::letters::number_bytes;

pub const EDGES: [Edge; 5] = [only_one, several, several_in_each_frame, like_a_block, like_a_block_alone];

/// As long as a variable's block, and longer.
const SIZES: &[usize] = &[13, 14, 20, 40];

fn any_number(random: &mut Random) -> u32 {
    random.pick(&[0, 1, 1, 2, 256, 1 << 31, u32::MAX])
}

/// Memory and variables, among them those of the next number.
fn others(random: &mut Random, order: u8, number: u32, most: usize) -> Vec<Vec<u8>> {
    let count = random.below(most + 1);
    let next = |random: &mut Random| variable_of(random, order, number.wrapping_add(1));
    (0..count).map(|_| if random.one_in(3) { next(random) } else { block(random, order, None) }).collect()
}

fn repeated(random: &mut Random, order: u8, number: u32, count: usize) -> Vec<Vec<u8>> {
    (0..count).map(|_| variable_of(random, order, number)).collect()
}

/// One block of a number: first, last and anywhere.
fn only_one(random: &mut Random, settings: Settings) -> Made {
    let (mut trace, n) = any_frame(random, settings, Some(13));
    let number = any_number(random);
    let own = [&b"V"[..], &number_bytes(settings, number)].concat();
    let mut blocks = others(random, settings.order, number, 5);
    blocks.retain(|block| !block.starts_with(&own));
    let anywhere = random.below(blocks.len() + 1);
    let place = random.pick(&[0, blocks.len(), anywhere]);
    blocks.insert(place, variable_of(random, settings.order, number));
    trace.frames[n].blocks = blocks;
    Made::new("a variable once", trace.bytes(), ACCEPTED)
}

/// Blocks of a number side by side, or among others.
fn several(random: &mut Random, settings: Settings) -> Made {
    let (mut trace, n) = any_frame(random, settings, None);
    trace.frames[n] = Frame::of(with_several(random, settings.order));
    Made::new("a variable several times", trace.bytes(), ACCEPTED)
}

fn several_in_each_frame(random: &mut Random, settings: Settings) -> Made {
    let mut trace = Trace::with_frames(random, settings, None);
    for frame in &mut trace.frames {
        frame.blocks = with_several(random, settings.order);
    }
    Made::new("a variable several times in each frame", trace.bytes(), ACCEPTED)
}

fn with_several(random: &mut Random, order: u8) -> Vec<Vec<u8>> {
    let number = any_number(random);
    let count = random.pick(&[2, 2, 3, 4]);
    let mut blocks = repeated(random, order, number, count);
    let mut around = others(random, order, number, 4);
    match random.below(4) {
        0 => {
            let behind = around.split_off(around.len() / 2);
            [around, blocks, behind].concat()
        }
        1 => {
            // The first value comes back.
            let first = blocks[..1].to_vec();
            [&first[..], &around, &blocks[1..], &first].concat()
        }
        _ => {
            blocks.append(&mut around);
            random.shuffle(&mut blocks);
            blocks
        }
    }
}

/// Blocks of a number, and mostly behind them bytes of memory and of registers that are a whole block of it.
fn like_a_block(random: &mut Random, settings: Settings) -> Made {
    let number = any_number(random);
    let count = random.pick(&[1, 1, 2]);
    let own = repeated(random, settings.order, number, count);
    Made::new("bytes like a variable", with_like(random, settings, number, own), ACCEPTED)
}

/// Such bytes alone, with a number that is asked for in every frame.
fn like_a_block_alone(random: &mut Random, settings: Settings) -> Made {
    let number = random.pick(&[0, 1]);
    Made::new("bytes like a variable alone", with_like(random, settings, number, Vec::new()), ACCEPTED)
}

fn with_like(random: &mut Random, settings: Settings, number: u32, mut blocks: Vec<Vec<u8>>) -> Vec<u8> {
    let [size, length] = [random.pick(SIZES), random.pick(SIZES)];
    let (mut trace, n) = any_frame(random, settings, Some(size));
    let registers = [b"R", &like(random, settings.order, number, size)[..]].concat();
    let bytes = like(random, settings.order, number, length);
    let mut behind = vec![registers, memory_at(settings.order, random.number(), &bytes)];
    random.shuffle(&mut behind);
    behind.truncate(random.pick(&[1, 2, 2]));
    blocks.append(&mut behind);
    if random.one_in(4) {
        random.shuffle(&mut blocks);
    }
    trace.frames[n].blocks = blocks;
    trace.bytes()
}

/// So many bytes, among them those of a block of the number.
fn like(random: &mut Random, order: u8, number: u32, count: usize) -> Vec<u8> {
    let mut bytes = random.bytes(count);
    let place = random.below(count - 13 + 1);
    bytes[place..place + 13].copy_from_slice(&variable_of(random, order, number));
    bytes
}
