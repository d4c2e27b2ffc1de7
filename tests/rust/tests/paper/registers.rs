//! The cases of request C-20: a second register block in a frame, in both byte orders and both bases.

use super::{edited, every_call_refuses, trace, with_frames, ALL, BIG, BIG_TEN, LITTLE, LITTLE_TEN};
use tufakpeni_tests::c::{Block, Count, Place, Range, Selection, Value};
use tufakpeni_tests::reader::Reader;

/// Memory of no bytes at address 0 and variable 0 of value -1: the same in both byte orders.
const MEMORY: &[u8] = b"M\0\0\0\0\0\0\0\0\0\0";
const VARIABLE: &[u8] = b"V\0\0\0\0\xFF\xFF\xFF\xFF\xFF\xFF\xFF\xFF";

pub fn all(reader: &Reader) {
    second_blocks(reader);
    faults_of_the_frame(reader);
    faults_of_other_frames(reader);
    one_block(reader);
    letters_in_bytes(reader);
    bases(reader);
    edits(reader);
}

/// Holds a trace to its refusal, from every call, or to the number of its frames.
fn holds(reader: &Reader, lines: &[u8], frames: &[&[u8]], refusal: u8) {
    for settings in ALL {
        let file = with_frames(settings, lines, frames);
        match refusal {
            0 => assert_eq!((reader.frame_count)(settings, &file), Count { refusal: 0, count: frames.len() }),
            _ => every_call_refuses(reader, settings, &file, refusal),
        }
    }
}

fn second_blocks(reader: &Reader) {
    // Side by side, with blocks between, with blocks around; three.
    holds(reader, b"R 2\n", &[b"R\xAA\xBBR\xCC\xDD"], 24);
    for between in [MEMORY, VARIABLE, &[MEMORY, VARIABLE].concat()] {
        holds(reader, b"R 2\n", &[&[b"R\xAA\xBB", between, b"R\xCC\xDD"].concat()], 24);
        holds(reader, b"R 2\n", &[&[between, b"R\xAA\xBB", between, b"R\xCC\xDD", between].concat()], 24);
    }
    holds(reader, b"R 2\n", &[b"R\xAA\xBBR\xCC\xDDR\xEE\xFF"], 24);
    // The same block twice.
    holds(reader, b"R 2\n", &[b"R\xAA\xBBR\xAA\xBB"], 24);
    // The second cut short, by one byte and to its letter.
    holds(reader, b"R 2\n", &[b"R\xAA\xBBR\xCC"], 24);
    holds(reader, b"R 2\n", &[b"R\xAA\xBBR"], 24);
    holds(reader, b"R 2\n", &[&[b"R\xAA\xBB", MEMORY, b"R"].concat()], 24);
    // Letters alone.
    holds(reader, b"R 0\n", &[b"RR"], 24);
    holds(reader, b"R 0\n", &[&[b"R", VARIABLE, b"R"].concat()], 24);
    holds(reader, b"R 0\n", &[b"RRR"], 24);
}

/// What comes first in the frame with two blocks.
fn faults_of_the_frame(reader: &Reader) {
    // A bad letter before the first block, between the two, behind the second, and as what the second is cut short by.
    holds(reader, b"R 2\n", &[b"xR\xAA\xBBR\xCC\xDD"], 8);
    holds(reader, b"R 2\n", &[b"R\xAA\xBBxR\xCC\xDD"], 8);
    holds(reader, b"R 2\n", &[b"R\xAA\xBBrR\xCC\xDD"], 8);
    holds(reader, b"R 2\n", &[b"R\xAA\xBBR\xCC\xDDx"], 24);
    holds(reader, b"R 2\n", &[b"R\xAA\xBBRx"], 24);
    holds(reader, b"R 0\n", &[b"RxR"], 8);
    holds(reader, b"R 0\n", &[b"RRx"], 24);
    // A block between that runs past the data, whose bytes look like a second one.
    holds(reader, b"R 2\n", &[b"R\xAA\xBBM\0\0\0\0\0\0\0\0\x09\x09R\xCC\xDD"], 9);
    holds(reader, b"R 2\n", &[b"R\xAA\xBBVR\xCC\xDD"], 9);
    // The first block cut short: no second letter is met.
    holds(reader, b"R 2\n", &[b"RR"], 9);
    holds(reader, b"R 2\n", &[b"RRR"], 0);
    // Without an R line the first block is 10 already; a line that only looks like one is none.
    holds(reader, b"", &[b"RR"], 10);
    holds(reader, b"", &[&[b"R", MEMORY, b"R"].concat()], 10);
    holds(reader, b"R2\n", &[b"R\xAA\xBBR\xCC\xDD"], 10);
    // The frame's data past the file, and its number 0.
    for settings in ALL {
        let file = with_frames(settings, b"R 2\n", &[b"R\xAA\xBBR\xCC\xDD"]);
        every_call_refuses(reader, settings, &file[..file.len() - 1], 7);
        let numberless = [&file[..13], b"\0\0", &file[15..]].concat();
        every_call_refuses(reader, settings, &numberless, 18);
    }
}

fn faults_of_other_frames(reader: &Reader) {
    const TWO: &[u8] = b"R\xAA\xBBR\xCC\xDD";
    for (fault, refusal) in [(&b"x"[..], 8), (b"R\xAA", 9), (b"V", 9)] {
        holds(reader, b"R 2\n", &[TWO, fault], 24);
        holds(reader, b"R 2\n", &[fault, TWO], refusal);
        holds(reader, b"R 2\n", &[b"", fault, b"R\xAA\xBB", TWO], refusal);
    }
    holds(reader, b"R 2\n", &[b"R\xAA\xBB", b"", TWO, b"R\xAA\xBB"], 24);
    for settings in ALL {
        for tail in [&b"\x01"[..], b"\0\0", b"\0\0\0\0\0", b"\x01\x01\xFF\xFF\xFF\xFF", b"\0\0\0\0"] {
            let file = with_frames(settings, b"R 2\n", &[TWO]);
            every_call_refuses(reader, settings, &[&file[..], tail].concat(), 24);
        }
    }
}

/// One register block in each frame, at every place among the blocks, and none.
fn one_block(reader: &Reader) {
    let [ahead, behind] = [[b"R\xAA\xBB", VARIABLE].concat(), [VARIABLE, b"R\xCC\xDD"].concat()];
    holds(reader, b"R 2\n", &[b"R\xAA\xBB", b"R\xCC\xDD"], 0);
    holds(reader, b"R 2\n", &[&behind, &ahead, &behind], 0);
    holds(reader, b"R 0\n", &[b"R", b"R", b"", b"R"], 0);
    holds(reader, b"R 0\n", &[b"R", b"RR"], 24);
    // Any number of other blocks.
    let [memory, variables] = [MEMORY.repeat(5), VARIABLE.repeat(5)];
    holds(reader, b"R 2\n", &[&[&memory[..], b"R\xAA\xBB", &variables].concat()], 0);
    holds(reader, b"", &[&memory, &variables, &[memory.clone(), variables.clone()].concat()], 0);
    for settings in ALL {
        let file = with_frames(settings, b"R 2\n", &[&behind, &ahead]);
        let registers = [0, 1].map(|n| (reader.registers_place)(settings, &file, n));
        assert_eq!(registers, [33, 42].map(|place| Place { refusal: 0, place, length: 2 }));
        assert_eq!((&file[33..35], &file[42..44]), (&b"\xCC\xDD"[..], &b"\xAA\xBB"[..]));
    }
}

/// Register and memory bytes, an address, a number and a value that are all `R`.
fn letters_in_bytes(reader: &Reader) {
    holds(reader, b"R 2\n", &[b"RRR"], 0);
    holds(reader, b"R 2\n", &[b"RRRRRR"], 24);
    holds(reader, b"R 2\n", &[b"RRR", b"RRR"], 0);
    // 257 bytes of memory: the length is the same in both byte orders.
    let memory = [b"MRRRRRRRR\x01\x01", &[b'R'; 257][..]].concat();
    let variable = b"VRRRRRRRRRRRR";
    holds(reader, b"R 2\n", &[&[b"RRR", &memory[..], variable].concat()], 0);
    holds(reader, b"R 2\n", &[&[&memory[..], variable, b"RRR"].concat()], 0);
    holds(reader, b"", &[&[&memory[..], variable].concat()], 0);
    holds(reader, b"R 2\n", &[&[b"RRR", &memory[..], variable, b"RRR"].concat()], 24);
    for settings in ALL {
        let file = with_frames(settings, b"R 2\n", &[&[b"RRR", &memory[..], variable].concat()]);
        let block = |k| (reader.block_record)(settings, &file, 0, k);
        assert_eq!(block(0), Block { letter: b'R', place: 19, ..Block::default() });
        let address = 0x5252_5252_5252_5252;
        assert_eq!(block(1), Block { letter: b'M', place: 22, address, length: 257, ..Block::default() });
        let (number, value) = (0x5252_5252, 0x5252_5252_5252_5252);
        assert_eq!(block(2), Block { letter: b'V', place: 290, number, value, ..Block::default() });
        assert_eq!(block(3).refusal, 12);
        assert_eq!((reader.registers_place)(settings, &file, 0), Place { refusal: 0, place: 20, length: 2 });
        assert_eq!((reader.variable)(settings, &file, 0, number), Value { refusal: 0, value });
    }
}

/// The base says where the second letter stands: in the other base it is a byte of the first block, or of no block.
fn bases(reader: &Reader) {
    for (settings, other) in [(LITTLE, LITTLE_TEN), (BIG, BIG_TEN)] {
        // Registers of 17 bytes whose twelfth is the letter of a second block behind 11.
        let sixteen = with_frames(settings, b"R 11\n", &[b"R-----------R-----"]);
        assert_eq!((reader.registers_place)(settings, &sixteen, 0), Place { refusal: 0, place: 21, length: 17 });
        every_call_refuses(reader, other, &sixteen, 24);
        // Registers of 11 bytes and a variable in which the letter of a second block stands behind 17.
        let ten = with_frames(settings, b"R 11\n", &[b"R-----------V\0\0\0\0\0R\0\0\0\0\0\0"]);
        assert_eq!((reader.registers_place)(other, &ten, 0), Place { refusal: 0, place: 21, length: 11 });
        every_call_refuses(reader, settings, &ten, 24);
    }
    // A second block in both bases, of three blocks of 11 bytes and of two of 17.
    holds(reader, b"R 11\n", &[&[b'R'; 36]], 24);
}

/// Cuts and joins leave every frame as it is; those of a trace with two blocks in a frame are refused, whichever frames
/// are selected, and so is a pair with it.
fn edits(reader: &Reader) {
    for settings in ALL {
        let of = |frames: &[&[u8]]| with_frames(settings, b"R 2\n", frames);
        let [one, other] = [&b"R\xAA\xBB"[..], b"R\xCC\xDD"];
        edited(&of(&[one, other]), |out| (reader.join)(settings, &of(&[one]), &of(&[other]), out));
        let keep = Selection { ranges: [Range { low: 7, high: 7 }; 8], count: 1, keep: 1 };
        edited(&of(&[one, other]), |out| (reader.cut)(settings, &of(&[one, other]), keep, out));
        let [good, bad] = [of(&[one]), of(&[one, b"R\xAA\xBBR\xCC\xDD"])];
        for selection in [keep, Selection { keep: 0, ..keep }, Selection::default()] {
            assert_eq!((reader.cut)(settings, &bad, selection, &mut [0; 99]).refusal, 24);
        }
        for (first, second) in [(&good, &bad), (&bad, &good), (&bad, &bad)] {
            assert_eq!((reader.join)(settings, first, second, &mut [0; 99]).refusal, 24);
            assert_eq!((reader.pair_place)(settings, first, second, 0).refusal, 24);
            assert_eq!((reader.pair_variable)(settings, first, second, 0, 0).refusal, 24);
        }
        // Ahead of openings that differ; behind a fault of the first trace.
        assert_eq!((reader.join)(settings, &trace(b"\n"), &bad, &mut [0; 99]).refusal, 24);
        assert_eq!((reader.join)(settings, &trace(b"x"), &bad, &mut [0; 99]).refusal, 4);
        assert_eq!((reader.join)(settings, &bad, &trace(b"x"), &mut [0; 99]).refusal, 24);
    }
}
