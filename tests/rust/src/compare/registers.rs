//! What a trace shows of register blocks: of a second one in a frame, and of what is none.

use crate::letters::{Frame, Frames};
use crate::second::Refusal;

/// What a trace shows of them.
#[derive(Clone, Copy, Debug, PartialEq, Eq)]
pub enum Registers {
    /// 24 where the second block stands right behind the first, and where others stand between them.
    SideBySide,
    Apart,
    /// 24 with a third register block behind.
    Third,
    /// 24 of a block that is cut short.
    Short,
    /// 24 with a bad letter behind the second block.
    BadLetterBehind,
    /// 24 of blocks that are letters alone.
    LettersAlone,
    /// 24 where the frame before has a register block.
    FrameBefore,
    /// 24 with a fault in a later frame, or behind the frames.
    FaultBehind,
    /// A fault in an earlier frame than the one with two blocks.
    FaultAhead,
    /// 7 of a frame with two blocks.
    PastFile,
    /// 8 behind a register block, with the letter of another right behind the bad one.
    BadLetterAhead,
    /// 10 with the letter of a second block right behind the first one's.
    NoLine,
    /// Accepted in this base with one block, and 24 in the other.
    OtherBase,
    /// Accepted with a register block in each of two frames one behind the other.
    TwoFrames,
    /// Accepted with registers, with memory, of two bytes or more that are all `R`.
    RegistersOfLetters,
    MemoryOfLetters,
    /// Accepted with one register block and several of memory, of variables.
    SeveralMemory,
    SeveralVariables,
}

impl Registers {
    pub const ALL: [Registers; 18] = [
        Registers::SideBySide,
        Registers::Apart,
        Registers::Third,
        Registers::Short,
        Registers::BadLetterBehind,
        Registers::LettersAlone,
        Registers::FrameBefore,
        Registers::FaultBehind,
        Registers::FaultAhead,
        Registers::PastFile,
        Registers::BadLetterAhead,
        Registers::NoLine,
        Registers::OtherBase,
        Registers::TwoFrames,
        Registers::RegistersOfLetters,
        Registers::MemoryOfLetters,
        Registers::SeveralMemory,
        Registers::SeveralVariables,
    ];

    /// What a trace with this refusal shows; whether the other base shows something is not told.
    pub fn of_trace(Frames { frames, end, .. }: &Frames, refusal: u8) -> Vec<Registers> {
        if refusal == 0 {
            return chosen(frames.iter().flat_map(of_sound).chain([(Registers::TwoFrames, neighbours(frames))]));
        }
        let Some(n) = frames.iter().position(Frame::is_refused) else { return Vec::new() };
        let (before, [frame, behind @ ..]) = frames.split_at(n) else { return Vec::new() };
        if refusal == Refusal::SecondRegisters as u8 && frame.has_second() {
            let around = [
                (Registers::FrameBefore, before.last().is_some_and(has_one)),
                (Registers::FaultBehind, end.is_some() || behind.iter().any(|frame| frame.fault().is_some())),
            ];
            return chosen(of_second(frame).into_iter().chain(around));
        }
        let ahead = !frame.has_second() && behind.iter().any(Frame::has_second);
        chosen(of_fault(frame).into_iter().chain([(Registers::FaultAhead, ahead)]))
    }
}

type Shown = (Registers, bool);

fn chosen(shown: impl Iterator<Item = Shown>) -> Vec<Registers> {
    shown.filter(|&(_, so)| so).map(|(shown, _)| shown).collect()
}

fn has_one(frame: &Frame) -> bool {
    frame.registers().len() == 1
}

fn neighbours(frames: &[Frame]) -> bool {
    frames.windows(2).any(|pair| pair.iter().all(has_one))
}

/// What a frame shows that is refused with 24.
fn of_second(frame: &Frame) -> [Shown; 6] {
    let places = frame.registers();
    let side_by_side = places[1] == places[0] + 1;
    [
        (Registers::SideBySide, side_by_side),
        (Registers::Apart, !side_by_side),
        (Registers::Third, places.len() > 2),
        (Registers::Short, frame.has_short_second()),
        (Registers::BadLetterBehind, frame.fault() == Some(Refusal::BadLetter)),
        (Registers::LettersAlone, places[..2].iter().all(|&place| frame.blocks[place].len() == 1)),
    ]
}

/// What a frame shows that has another fault.
fn of_fault(frame: &Frame) -> [Shown; 3] {
    let letter_behind = |fault| frame.behind(fault).is_some_and(|behind| behind.starts_with(b"R"));
    [
        (Registers::PastFile, frame.is_past_file() && frame.has_second()),
        (Registers::BadLetterAhead, has_one(frame) && letter_behind(Refusal::BadLetter)),
        (Registers::NoLine, letter_behind(Refusal::NoRegisterSize)),
    ]
}

/// What a frame of an accepted file shows.
fn of_sound(frame: &Frame) -> [Shown; 4] {
    let letters = |bytes: &[u8]| bytes.len() > 1 && bytes.iter().all(|&byte| byte == b'R');
    let one = has_one(frame);
    [
        (Registers::RegistersOfLetters, frame.with_letter(b'R').any(|(_, block)| letters(&block[1..]))),
        (Registers::MemoryOfLetters, one && frame.with_letter(b'M').any(|(_, block)| letters(&block[11..]))),
        (Registers::SeveralMemory, one && frame.with_letter(b'M').count() > 1),
        (Registers::SeveralVariables, one && frame.with_letter(b'V').count() > 1),
    ]
}
