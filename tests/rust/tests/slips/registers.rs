//! Slips about a second register block in a frame.

use super::{swapped, Slip};
use tufakpeni_tests::answers::{Answer, SECOND};
use tufakpeni_tests::c::{Count, Settings};
use tufakpeni_tests::letters::{Frame, Frames};
use tufakpeni_tests::reader::Reader;
use tufakpeni_tests::second::Refusal;

/// A reader whose number of frames goes by a judgement of each frame, or of frame n of all.
macro_rules! judging {
    (|$frame:ident| $judge:expr) => {
        judging!(|frames, n| {
            let $frame = &frames[n];
            $judge
        })
    };
    (|$frames:ident, $n:ident| $judge:expr) => {
        Reader { frame_count: |settings, file| judged(settings, file, |$frames, $n| $judge), ..SECOND }
    };
}

pub const AT_MOST_ONE: Reader = judging!(|frame| second_if(frame.has_second(), frame));

/// What is taken for a second block.
pub const RULE_SLIPS: [Slip; 13] = [
    ("9 for 24", Reader { frame_count: nine, ..SECOND }),
    ("a second block let through", judging!(|frame| frame.fault())),
    ("only a third block refused", judging!(|frame| second_if(frame.registers().len() > 2, frame))),
    ("only blocks side by side refused", judging!(|frame| second_if(side_by_side(frame), frame))),
    ("only blocks apart refused", judging!(|frame| second_if(apart(frame), frame))),
    ("letters alone let through", judging!(|frame| second_if(second_with_bytes(frame), frame))),
    ("letters looked for in all bytes", judging!(|frame| second_if(letters(frame) > 1, frame))),
    ("letters looked for in register bytes", judging!(|frame| second_or(in_bytes(frame, b'R'), frame))),
    ("letters looked for in memory bytes", judging!(|frame| second_or(in_bytes(frame, b'M'), frame))),
    ("letters looked for in a variable's bytes", judging!(|frame| second_or(in_bytes(frame, b'V'), frame))),
    ("a second memory block refused", judging!(|frame| second_or(several(frame, b'M'), frame))),
    ("a second variable refused", judging!(|frame| second_or(several(frame, b'V'), frame))),
    ("every register block refused", judging!(|frame| second_if(frame.has_registers(), frame))),
];

/// When it is judged.
pub const ORDER_SLIPS: [Slip; 8] = [
    ("the second block's 9 ahead of 24", judging!(|frame| second_if(has_whole_second(frame), frame))),
    ("24 at the frame's end", judging!(|frame| frame.fault().or(second(frame)))),
    ("24 ahead of an earlier 8", judging!(|frame| second_or(behind(frame, Refusal::BadLetter), frame))),
    ("24 for 10", judging!(|frame| second_or(behind(frame, Refusal::NoRegisterSize), frame))),
    ("24 ahead of 7", judging!(|frame| second(frame).or(frame.fault()))),
    ("24 ahead of earlier frames", judging!(|frames, n| frames.iter().find_map(second_of_whole).or(frames[n].fault()))),
    ("24 behind later frames", judging!(|frames, n| judged_last(&frames[n..]))),
    ("24 behind what follows the frames", Reader { frame_count: end_first, ..SECOND }),
];

/// In which frame it is judged, and with which settings.
pub const FRAME_SLIPS: [Slip; 9] = [
    ("the frame before counted", judging!(|frames, n| one_among(&frames[n.saturating_sub(1)..n], &frames[n]))),
    ("all frames before counted", judging!(|frames, n| one_among(&frames[..n], &frames[n]))),
    ("a block at the border counted", judging!(|frames, n| second_or(at_border(&frames[..n], &frames[n]), &frames[n]))),
    ("only the first frame judged", judging!(|frames, n| second_if(n == 0 && frames[n].has_second(), &frames[n]))),
    ("the first frame not judged", judging!(|frames, n| second_if(n > 0 && frames[n].has_second(), &frames[n]))),
    ("not judged in little", Reader { frame_count: |read, file| lenient_if(read.order == 0, read, file), ..SECOND }),
    ("not judged in big", Reader { frame_count: |read, file| lenient_if(read.order == 1, read, file), ..SECOND }),
    ("not judged in base 10", Reader { frame_count: |read, file| lenient_if(read.base == 10, read, file), ..SECOND }),
    ("not judged in base 16", Reader { frame_count: |read, file| lenient_if(read.base == 16, read, file), ..SECOND }),
];

macro_rules! let_through {
    ($($call:ident($($argument:ident),*))*) => {
        [$((
            concat!(stringify!($call), " of a trace with a second block"),
            Reader { $call: |settings, $($argument),*| answered((SECOND.$call)(settings, $($argument),*)), ..SECOND },
        )),*]
    };
}

/// An empty answer in place of 24 from one call, of each that reads a trace.
pub const CALL_SLIPS: [Slip; 13] = let_through! {
    frame_count(file) end_mark(file) frame_table(file, records) line_place(file, j) frame_place(file, n)
    block_record(file, n, k) registers_place(file, n) memory_place(file, n, address) variable(file, n, number)
    cut(file, selection, out) join(first, second, out) pair_place(first, second, n)
    pair_variable(first, second, n, number)
};

fn answered<A: Answer>(right: A) -> A {
    if right.refusal() == Refusal::SecondRegisters as u8 {
        return A::default();
    }
    right
}

/// The count by a judgement of each frame in turn, and of the end behind them.
fn judged(settings: Settings, file: &[u8], judge: fn(&[Frame], usize) -> Option<Refusal>) -> Count {
    let Some(Frames { frames, end, .. }) = Frames::read(settings, file) else {
        return (SECOND.frame_count)(settings, file);
    };
    match (0..frames.len()).find_map(|n| judge(&frames, n)).or(end) {
        Some(refusal) => Count::refused(refusal as u8),
        None => Count { refusal: 0, count: frames.len() },
    }
}

/// 24 where this is so and 7 does not come first, else the frame's other fault.
fn second_if(so: bool, frame: &Frame) -> Option<Refusal> {
    if so && !frame.is_past_file() {
        return Some(Refusal::SecondRegisters);
    }
    frame.fault()
}

/// The same where 24 is right besides.
fn second_or(so: bool, frame: &Frame) -> Option<Refusal> {
    second_if(so || frame.has_second(), frame)
}

fn second(frame: &Frame) -> Option<Refusal> {
    frame.has_second().then_some(Refusal::SecondRegisters)
}

/// 24 but for a frame past the file.
fn second_of_whole(frame: &Frame) -> Option<Refusal> {
    second(frame).filter(|_| !frame.is_past_file())
}

fn nine(settings: Settings, file: &[u8]) -> Count {
    swapped((SECOND.frame_count)(settings, file), Refusal::SecondRegisters, Refusal::BlockPastData, true)
}

fn side_by_side(frame: &Frame) -> bool {
    frame.registers().windows(2).any(|places| places[1] == places[0] + 1)
}

fn apart(frame: &Frame) -> bool {
    frame.registers().windows(2).any(|places| places[1] > places[0] + 1)
}

fn second_with_bytes(frame: &Frame) -> bool {
    frame.with_letter(b'R').filter(|(_, block)| block.len() > 1).count() > 1
}

/// How often the letter stands among all bytes.
fn letters(frame: &Frame) -> usize {
    frame.blocks.concat().iter().filter(|&&byte| byte == b'R').count()
}

/// Whether the letter stands in the bytes of blocks with this one, in a frame with a register block.
fn in_bytes(frame: &Frame, letter: u8) -> bool {
    frame.has_registers() && frame.with_letter(letter).any(|(_, block)| block[1..].contains(&b'R'))
}

fn several(frame: &Frame, letter: u8) -> bool {
    frame.with_letter(letter).count() > 1
}

fn has_whole_second(frame: &Frame) -> bool {
    frame.has_second() && !frame.has_short_second()
}

/// Whether the letter stands right behind a letter with this fault, in a frame with a register block before it or there.
fn behind(frame: &Frame, fault: Refusal) -> bool {
    frame.has_registers() && frame.behind(fault).is_some_and(|behind| behind.starts_with(b"R"))
}

/// A fault of the later frames, where there is one, in place of the first one's 24.
fn judged_last(frames: &[Frame]) -> Option<Refusal> {
    let (frame, later) = frames.split_first()?;
    match second_of_whole(frame) {
        None => frame.fault(),
        second => later.iter().find_map(Frame::fault).or(second),
    }
}

/// 6 or 18 behind the frames ahead of 24.
fn end_first(settings: Settings, file: &[u8]) -> Count {
    let right = (SECOND.frame_count)(settings, file);
    let end = Frames::read(settings, file).and_then(|frames| frames.end);
    end.map_or(right, |end| swapped(right, Refusal::SecondRegisters, end, true))
}

/// 24 also where a register block of these frames makes another a second one.
fn one_among(before: &[Frame], frame: &Frame) -> Option<Refusal> {
    second_or(before.iter().any(Frame::has_registers) && frame.has_registers(), frame)
}

/// Whether the frame before ends with a register block and this one begins with one.
fn at_border(before: &[Frame], frame: &Frame) -> bool {
    let ends = before.last().and_then(|frame| frame.blocks.last()).is_some_and(|block| block[0] == b'R');
    ends && frame.blocks.first().is_some_and(|block| block[0] == b'R')
}

fn lenient_if(so: bool, settings: Settings, file: &[u8]) -> Count {
    if so {
        return judged(settings, file, |frames, n| frames[n].fault());
    }
    (SECOND.frame_count)(settings, file)
}
