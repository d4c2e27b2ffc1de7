//! The cases of request C-14: the data of frame n by the parts alone that are read for them, in both byte orders and
//! both bases.

use super::{every_call_refuses, frame, head, trace, with_frames, ALL, BAD_MARKS, BIG, H, LITTLE, SHORT_HEADS};
use tufakpeni_tests::answers::Answer;
use tufakpeni_tests::c::{FramePart, Settings};
use tufakpeni_tests::make::longest;
use tufakpeni_tests::reader::Reader;

/// Registers by `R 2`, variable 0 of value -1, and memory of no bytes at address 0: the same in both byte orders.
const REGISTERS: &[u8] = b"R\xAA\xBB";
const VARIABLE: &[u8] = b"V\0\0\0\0\xFF\xFF\xFF\xFF\xFF\xFF\xFF\xFF";
const MEMORY: &[u8] = b"M\0\0\0\0\0\0\0\0\0\0";
/// Three frames, and where their data stand behind an opening of 13 bytes.
const SOUND: [&[u8]; 3] = [REGISTERS, VARIABLE, b""];
const PLACES: [Told; 3] = [Ok((19, 3)), Ok((28, 13)), Ok((47, 0))];
const LINES: &[u8] = b"R 2\n";

/// Data at fault with the R line, and their refusal.
const FAULTS: [(&[u8], u8); 10] = [
    (b"x", 8),
    (b"r\xAA\xBB", 8),
    (b"R\xAA\xBBR\xCC\xDD", 24),
    (b"R\xAA\xBBR", 24),
    (b"R\xAA\xBBxR", 8),
    (b"R\xAA", 9),
    (b"R", 9),
    (b"V\0\0\0\0\xFF\xFF\xFF\xFF\xFF\xFF\xFF", 9),
    (b"M\0\0\0\0\0\0\0\0\0", 9),
    (b"M\0\0\0\0\0\0\0\0\x01\x01", 9),
];

const MARK: &[u8] = b"\0\0\0\0";

pub fn all(reader: &Reader) {
    for settings in ALL {
        let given = Given { reader, settings };
        given.sound_files();
        given.blocks_at_fault();
        given.no_register_size();
        given.sizes_at_fault();
        given.numbers_of_0();
        given.ends();
        given.openings();
    }
    longest_files(reader, LITTLE);
    longest_files(reader, BIG);
}

/// Place and length of a frame's data, or the refusal.
type Told = Result<(usize, usize), u8>;

struct Given<'r> {
    reader: &'r Reader,
    settings: Settings,
}

impl Given<'_> {
    /// Holds a file to what is told of its first frames, and of every number from there on to one refusal.
    fn holds(&self, file: &[u8], told: &[Told], behind: u8) {
        let count = told.len();
        let past = [count, count + 1, count + 2, 1 << 63, (1 << 63) + count, usize::MAX].map(|n| (n, Err(behind)));
        for (n, told) in told.iter().copied().enumerate().chain(past) {
            let part = match told {
                Ok((place, length)) => FramePart { refusal: 0, place, length, heads: n + 1 },
                Err(refusal) => FramePart { refusal, place: 0, length: 0, heads: 0 },
            };
            let front = &file[..file.len().min(99)];
            assert_eq!((self.reader.frame_place)(self.settings, file, n), part, "frame {n} of {front:02x?}");
        }
    }

    fn file(&self, frames: &[&[u8]], tail: &[u8]) -> Vec<u8> {
        [&with_frames(self.settings, LINES, frames)[..], tail].concat()
    }

    fn head(&self, number: u16, size: u32) -> Vec<u8> {
        head(self.settings, number, size)
    }

    /// Every other call reads the whole file.
    fn whole_file_refused(&self, file: &[u8], refusal: u8) {
        every_call_refuses(self.reader, self.settings, file, refusal);
    }

    fn sound_files(&self) {
        for tail in [&b""[..], MARK] {
            self.holds(&self.file(&SOUND, tail), &PLACES, 12);
            self.holds(&self.file(&[], tail), &[], 12);
            self.holds(&self.file(&[b"", b"", REGISTERS], tail), &[Ok((19, 0)), Ok((25, 0)), Ok((31, 3))], 12);
            self.holds(&trace(&[b"\n", tail].concat()), &[], 12);
        }
    }

    /// In the first frame, between and in the last: the others are answered, and what stands behind counts for none.
    fn blocks_at_fault(&self) {
        for (fault, refusal) in FAULTS {
            let size = fault.len();
            for (tail, end) in [(&b""[..], 12), (MARK, 12), (b"\x07", 6), (b"\0\0", 18)] {
                let first = self.file(&[fault, VARIABLE, b""], tail);
                self.holds(&first, &[Err(refusal), Ok((25 + size, 13)), Ok((44 + size, 0))], end);
                let between = self.file(&[REGISTERS, fault, VARIABLE], tail);
                self.holds(&between, &[PLACES[0], Err(refusal), Ok((34 + size, 13))], end);
                let last = self.file(&[REGISTERS, VARIABLE, fault], tail);
                self.holds(&last, &[PLACES[0], PLACES[1], Err(refusal)], end);
                for file in [first, between, last] {
                    self.whole_file_refused(&file, refusal);
                }
            }
        }
        // Behind sound blocks, and two faults of which each counts for its own frame.
        let behind = [MEMORY, VARIABLE, b"x"].concat();
        self.holds(&self.file(&[&behind, b"R", REGISTERS], b""), &[Err(8), Err(9), Ok((57, 3))], 12);
    }

    /// 10 without an R line, ahead of 9 and of a second block; a line that only looks like one is none.
    fn no_register_size(&self) {
        for lines in [&b""[..], b"R2\n"] {
            for fault in [&b"R"[..], REGISTERS, b"RR", &[MEMORY, b"R"].concat()] {
                let file = with_frames(self.settings, lines, &[VARIABLE, fault, MEMORY]);
                let start = 9 + lines.len();
                let told = [Ok((start + 6, 13)), Err(10), Ok((start + 31 + fault.len(), 11))];
                self.holds(&file, &told, 12);
                self.whole_file_refused(&file, 10);
            }
        }
    }

    /// 7 by the size of an earlier frame and by its own, ahead of that frame's blocks. The frame stands at 22, with 19
    /// bytes behind its head.
    fn sizes_at_fault(&self) {
        let front = self.file(&[REGISTERS], b"");
        for data in [VARIABLE, b"xxxxxxxxxxxxx"] {
            let behind = [data, &frame(self.settings, b"")].concat();
            let with_size = |size| [&front[..], &self.head(7, size), &behind].concat();
            for size in [20, 21, 256 + 19, 65_536, 1 << 24, 1 << 31, u32::MAX] {
                self.holds(&with_size(size), &[PLACES[0]], 7);
                self.whole_file_refused(&with_size(size), 7);
            }
            // Up to the file's end: all that follows is data of this frame, and its last six bytes no block.
            self.holds(&with_size(19), &[PLACES[0], Err(8)], 12);
            // Of the first frame, which no later one is answered behind.
            let first = [&front[..13], &self.head(7, u32::MAX), &front[19..], &behind].concat();
            self.holds(&first, &[], 7);
        }
        // A size too low by 13: the next head is read in the data, and says a size past the file.
        let low = [&front[..], &self.head(7, 0), VARIABLE, &frame(self.settings, b"")].concat();
        self.holds(&low, &[PLACES[0], Ok((28, 0))], 7);
    }

    /// 18 for the number 0 of an earlier frame and of its own, ahead of 7 and of its blocks.
    fn numbers_of_0(&self) {
        let front = self.file(&[REGISTERS], b"");
        for (size, data) in [(0, &b""[..]), (13, VARIABLE), (1, b"x"), (u32::MAX, b"")] {
            let zero = [&front[..], &self.head(0, size), data, &frame(self.settings, VARIABLE)].concat();
            self.holds(&zero, &[PLACES[0]], 18);
            self.whole_file_refused(&zero, 18);
        }
        // One byte of 0 makes no number 0.
        for number in [1, 256] {
            let file = [&front[..], &self.head(number, 13), VARIABLE].concat();
            self.holds(&file, &[PLACES[0], PLACES[1]], 12);
        }
    }

    /// What stands where the head of frame n should start, behind sound frames and behind one at fault.
    fn ends(&self) {
        let ends = [(&SHORT_HEADS[..], 6), (&BAD_MARKS, 18), (&[b"", MARK], 12)];
        for (tails, refusal) in ends {
            for tail in tails {
                self.holds(&self.file(&SOUND, tail), &PLACES, refusal);
                self.holds(&self.file(&[], tail), &[], refusal);
                let faulty = self.file(&[b"R", VARIABLE], tail);
                self.holds(&faulty, &[Err(9), Ok((26, 13))], refusal);
                self.whole_file_refused(&faulty, 9);
            }
        }
    }

    /// 2 comes first, whatever the file is; then the opening, whatever stands behind it.
    fn openings(&self) {
        let sound = self.file(&SOUND, b"");
        let wrong = [Settings { order: 2, ..self.settings }, Settings { base: 8, ..self.settings }];
        for settings in wrong {
            for file in [&sound[..], b"", H, b"x", &self.file(&[b"x"], b"\0\0")] {
                Given { settings, ..*self }.holds(file, &[], 2);
            }
        }
        let frames = &sound[13..];
        for (front, refusal) in [
            (&b""[..], 3),
            (&H[..7], 3),
            (b"\x7fTRACE1\nR 2\n\n", 3),
            (H, 4),
            (b"\x7fTRACE0\nR 2", 4),
            (b"\x7fTRACE0\nR 2\nR x", 4),
            (b"\x7fTRACE0\nR x\n\n", 5),
            (b"\x7fTRACE0\nR 2\nR 2\n\n", 5),
            (b"\x7fTRACE0\nstatus 1\nstatus 2\n\n", 5),
            (b"\x7fTRACE0\nR x\n", 5),
        ] {
            self.holds(front, &[], refusal);
            // Frames close no description: their bytes hold no line's end here.
            self.holds(&[front, frames].concat(), &[], refusal);
        }
    }
}

/// 1 for a byte more than the limit, behind 2 and ahead of the file; at the limit the first frames are answered.
fn longest_files(reader: &Reader, settings: Settings) {
    let long = longest::filled(with_frames(settings, LINES, &SOUND), 1);
    let given = Given { reader, settings };
    given.holds(&long[..long.len() - 1], &PLACES, 18);
    given.holds(&long, &[], 1);
    given.holds(&long[1..], &[], 3);
    let wrong = Settings { order: 2, ..settings };
    assert_eq!((reader.frame_place)(wrong, &long, 0), Answer::refused(2));
}
