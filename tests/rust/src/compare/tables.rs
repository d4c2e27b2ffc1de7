//! What a frame table shows of register blocks: where they stand, which frames have none, and which records are left.

use crate::c::{Count, Frame as Row, Place, Settings};
use crate::letters::{Frame, Frames};
use crate::reader::{fields, Reader, Record};
use crate::second::Refusal;

/// What the table of an accepted trace shows of them.
#[derive(Clone, Copy, Debug, PartialEq, Eq)]
pub enum Tables {
    /// A register block that is the first of several in its frame, the last, the only one.
    First,
    Last,
    Alone,
    /// One with memory right before and right behind it.
    BetweenMemory,
    /// One behind memory that has the letter among its bytes.
    BehindLetters,
    /// One of size 0, and one whose place is the file's length.
    Empty,
    AtFileEnd,
    /// No register block in a frame with others, and in one without data.
    OthersAlone,
    NoData,
    /// None in the frame right behind one with registers.
    NoneBehind,
    /// Frames, and no R line.
    NoLine,
    /// Of a trace with registers: 11, and records beyond the last frame.
    NoRoom,
    Beyond,
}

impl Tables {
    pub const ALL: [Tables; 13] = [
        Tables::First,
        Tables::Last,
        Tables::Alone,
        Tables::BetweenMemory,
        Tables::BehindLetters,
        Tables::Empty,
        Tables::AtFileEnd,
        Tables::OthersAlone,
        Tables::NoData,
        Tables::NoneBehind,
        Tables::NoLine,
        Tables::NoRoom,
        Tables::Beyond,
    ];

    /// What the frames show; whether there is room for their records is not told.
    pub fn of_trace(Frames { opening, frames, tail, .. }: &Frames) -> Vec<Tables> {
        let none_behind = |pair: &[Frame]| pair[0].has_registers() && !pair[1].has_registers();
        let has_line = opening.windows(3).any(|bytes| bytes == b"\nR ");
        let around = [
            (Tables::AtFileEnd, tail.is_empty() && frames.last().is_some_and(ends_with_letter)),
            (Tables::NoneBehind, frames.windows(2).any(none_behind)),
            (Tables::NoLine, !frames.is_empty() && !has_line),
        ];
        let shown = frames.iter().flat_map(of_frame).chain(around);
        shown.filter(|&(_, so)| so).map(|(shown, _)| shown).collect()
    }

    /// What an answer for so many records shows of a trace with registers.
    pub fn of_answer(answer: Count, room: usize) -> Option<Tables> {
        const NO_ROOM: u8 = Refusal::NoRoom as u8;
        match answer.refusal {
            0 => (answer.count < room).then_some(Tables::Beyond),
            NO_ROOM => Some(Tables::NoRoom),
            _ => None,
        }
    }
}

fn of_frame(frame: &Frame) -> Vec<(Tables, bool)> {
    let count = frame.blocks.len();
    let Some(&place) = frame.registers().first() else {
        return vec![(Tables::OthersAlone, count > 0), (Tables::NoData, count == 0)];
    };
    let (first, last) = (place == 0, place + 1 == count);
    let is_memory = |place: usize| frame.blocks.get(place).is_some_and(|block| block[0] == b'M');
    let letters_ahead = |(k, block): (usize, &[u8])| k < place && block[11..].contains(&b'R');
    vec![
        (Tables::First, first && !last),
        (Tables::Last, last && !first),
        (Tables::Alone, first && last),
        (Tables::BetweenMemory, !first && is_memory(place - 1) && is_memory(place + 1)),
        (Tables::BehindLetters, frame.with_letter(b'M').any(letters_ahead)),
        (Tables::Empty, frame.blocks[place].len() == 1),
    ]
}

fn ends_with_letter(frame: &Frame) -> bool {
    frame.blocks.last().is_some_and(|block| block == b"R")
}

/// Whether a record says of its frame's registers what the question about them answers.
pub fn agrees(row: &Row, registers: &Place) -> bool {
    match row.has_registers {
        0 => registers.refusal == Refusal::NotFound as u8 && row.registers_place == 0,
        1 => registers.refusal == 0 && row.registers_place == registers.place,
        _ => false,
    }
}

/// Whether a reader's own record of every frame says what its own answer about that frame's registers does.
pub fn all_agree(reader: &Reader, settings: Settings, file: &[u8]) -> bool {
    let mut records = vec![Record::default(); (reader.frame_count)(settings, file).count];
    let written = (reader.frame_table)(settings, file, &mut records).count;
    let registers = |n| (reader.registers_place)(settings, file, n);
    let same = |(n, record): (usize, &Record)| agrees(&fields(record), &registers(n));
    written == records.len() && records.iter().enumerate().all(same)
}
