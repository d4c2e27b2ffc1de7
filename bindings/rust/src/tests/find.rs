//! One frame by its number: as an opened trace has it, and also where the file is at fault elsewhere.
use super::bases::read_by_both;
use super::bytes::{frame, marked, memory, number, opening, registers, stands_at, trace, variable, ORDERS};
use super::trace::BOARD;
use crate::{find_frame, Base, Content, Frame, Order, Refusal, Settings, Trace, LONGEST};
use Refusal::{BadHead, BadLetter, BadLine, BadMark, DataPastFile, NoEmptyLine, NotFound, ShortHead, TooLong};

const FRAME_HEAD: usize = 6;
const MEMORY_HEAD: usize = 11;

/// Every question of one frame has the other's answer.
fn same(one: &Frame, other: &Frame) {
    let told = |frame: &Frame| (frame.number(), frame.tracepoint(), frame.place(), frame.registers_place());
    assert_eq!(told(one), told(other));
    assert_eq!(one.data(), other.data());
    assert_eq!(one.registers(), other.registers());
    assert!(one.blocks().eq(other.blocks()));
    for address in [0, 76, 77, 78, 79, 0x7FF000, u64::MAX] {
        assert_eq!(one.memory(address), other.memory(address));
    }
    for number in 0..9 {
        assert_eq!(one.variable(number), other.variable(number));
    }
}

/// What a frame hands out are parts of this file, and no copies.
fn stands_in(file: &[u8], frame: &Frame) {
    assert!(stands_at(file, frame.place(), frame.data()));
    for block in frame.blocks() {
        match block.content {
            Content::Registers(bytes) => {
                assert!(stands_at(file, block.place + 1, bytes));
                assert!(stands_at(file, block.place + 1, frame.registers().unwrap()));
            }
            Content::Memory { bytes, .. } => assert!(stands_at(file, block.place + MEMORY_HEAD, bytes)),
            Content::Variable { .. } => (),
        }
    }
}

/// Frame n of a file is found as the trace of another file, which is accepted, has it.
fn finds(file: &[u8], n: usize, expected: &Trace) {
    let found = find_frame(expected.settings(), file, n).unwrap();
    assert_eq!(found.heads, n + 1);
    same(&found.frame, &expected.frame(n).unwrap());
    stands_in(file, &found.frame);
}

fn refuses(settings: impl Into<Settings>, file: &[u8], n: usize, refusal: Refusal) {
    assert_eq!(find_frame(settings, file, n).map(|found| found.heads), Err(refusal), "frame {n}");
}

/// Blocks of every kind, empty frames, and data that have an empty line in them. The R line is not the first, and a line before it
/// looks like one.
fn mixed(order: Order) -> Vec<u8> {
    let lines = memory(order, 77, b"\n\n\n");
    let frames = [
        frame(order, 1, &[registers(b"\n\n"), lines.clone()]),
        frame(order, 258, &[variable(order, 7, -8), lines.clone(), variable(order, 7, 9)]),
        frame(order, 256, &[]),
        frame(order, 1, &[lines, variable(order, 3, 4), registers(b"ab"), memory(order, 78, b"cd")]),
        frame(order, 65535, &[registers(b"RM")]),
    ];
    trace("tp x\nR8\nR 2\nstatus 1\n", &frames)
}

/// Files that are accepted, each with its settings.
fn accepted() -> Vec<(Settings, Vec<u8>)> {
    let mut files = vec![(Order::Little.into(), BOARD.to_vec())];
    for order in ORDERS {
        for base in [Base::Ten, Base::Sixteen] {
            let settings = Settings { order, base };
            files.extend([mixed(order), marked(&mixed(order), true), read_by_both(order)].map(|file| (settings, file)));
            files.extend([opening(""), marked(&opening("R 2\n"), true)].map(|file| (settings, file)));
        }
    }
    files
}

#[test]
fn each_frame_of_an_accepted_file() {
    for (settings, file) in accepted() {
        let trace = Trace::open(settings, &file).unwrap();
        let count = trace.frame_count();
        (0..count).for_each(|n| finds(&file, n, &trace));
        for n in [count, count + 1, 1 << 32, 1 << 63, usize::MAX] {
            refuses(settings, &file, n, NotFound);
        }
    }
}

/// Every byte that is no part of what frame n needs is made another: no answer changes.
#[test]
fn other_bytes_do_not_count() {
    for (settings, file) in accepted() {
        let trace = Trace::open(settings, &file).unwrap();
        for frame in trace.frames() {
            let mut damaged: Vec<u8> = file.iter().map(|byte| !byte).collect();
            let heads = trace.frames().take(frame.number() + 1).map(|f| f.place() - FRAME_HEAD..f.place());
            let own = frame.place()..frame.place() + frame.data().len();
            for part in heads.chain([0..trace.opening().len(), own]) {
                damaged[part.clone()].copy_from_slice(&file[part]);
            }
            finds(&damaged, frame.number(), &trace);
        }
    }
}

/// A bad letter in one frame is that frame's alone.
#[test]
fn a_fault_in_a_frames_blocks() {
    for order in ORDERS {
        let file = mixed(order);
        let trace = Trace::open(order, &file).unwrap();
        for faulty in [0, 1, 3, 4] {
            let mut damaged = file.clone();
            damaged[trace.frame(faulty).unwrap().place()] = b'?';
            assert_eq!(Trace::open(order, &damaged).err(), Some(BadLetter));
            (0..trace.frame_count()).filter(|&n| n != faulty).for_each(|n| finds(&damaged, n, &trace));
            refuses(order, &damaged, faulty, BadLetter);
            refuses(order, &damaged, trace.frame_count(), NotFound);
        }
    }
}

/// A size past the file is the fault of its frame and of every one behind it; so is a number of 0.
#[test]
fn a_fault_in_a_head() {
    for order in ORDERS {
        let file = mixed(order);
        let trace = Trace::open(order, &file).unwrap();
        for faulty in trace.frames() {
            let (head, past) = (faulty.place() - FRAME_HEAD, (file.len() - faulty.place() + 1) as u64);
            for (at, bytes, refusal) in [(2, number(order, 4, past), DataPastFile), (0, vec![0; 2], BadMark)] {
                let mut damaged = file.clone();
                damaged[head + at..head + at + bytes.len()].copy_from_slice(&bytes);
                (0..faulty.number()).for_each(|n| finds(&damaged, n, &trace));
                (faulty.number()..8).for_each(|n| refuses(order, &damaged, n, refusal));
                refuses(order, &damaged, usize::MAX, refusal);
            }
        }
    }
}

/// What stands behind the last frame, and how it is refused there.
#[test]
fn a_fault_behind_the_frames() {
    let rests: [(&[u8], Refusal); 8] = [
        (b"\x01", ShortHead),
        (b"\0", ShortHead),
        (b"\x01\0\0\0\0", ShortHead),
        (b"\0\0", BadMark),
        (b"\0\0\0\x01", BadMark),
        (b"\0\0\0\0\0", BadMark),
        (b"\0\0\0\0\x01\x01\0\0\0\0", BadMark),
        (b"\x01\x01\x01\x01\x01\x01", DataPastFile),
    ];
    for order in ORDERS {
        let file = mixed(order);
        let trace = Trace::open(order, &file).unwrap();
        for (rest, refusal) in rests {
            let damaged = [&file, rest].concat();
            (0..trace.frame_count()).for_each(|n| finds(&damaged, n, &trace));
            refuses(order, &damaged, trace.frame_count(), refusal);
        }
    }
}

#[test]
fn a_fault_in_the_opening() {
    for order in ORDERS {
        let frames = [frame(order, 1, &[])];
        refuses(order, b"", 0, BadHead);
        refuses(order, b"\x7fTRACE0\nR 2\n", 0, NoEmptyLine);
        refuses(order, &trace("R x\n", &frames), 0, BadLine);
        refuses(order, &trace("R 2\nR 2\n", &frames), 1, BadLine);
    }
}

#[test]
fn a_file_of_the_longest_length() {
    let sound = trace("", &[frame(Order::Little, 1, &[])]);
    let mut file = sound.clone();
    file.resize(LONGEST + 1, 0);
    finds(&file[..LONGEST], 0, &Trace::open(Order::Little, &sound).unwrap());
    refuses(Order::Little, &file[..LONGEST], 1, BadMark);
    refuses(Order::Little, &file, 0, TooLong);
}
