//! The cases of request C-13: the latest block of a variable counts, in both byte orders and both bases.

use super::{with_frames, ALL};
use tufakpeni_tests::c::{Place, Settings, Value};
use tufakpeni_tests::reader::Reader;

/// A variable's number, the number that has its bytes in the other byte order, and numbers that differ in one byte.
const NUMBER: u32 = 0x0102_0304;
const OTHER: u32 = NUMBER.swap_bytes();
const BESIDE: [u32; 4] = [NUMBER ^ 1, NUMBER ^ 1 << 8, NUMBER ^ 1 << 16, NUMBER ^ 1 << 24];

pub fn all(reader: &Reader) {
    for settings in ALL {
        let given = Given { reader, settings };
        given.one_block();
        given.several_blocks();
        given.bytes_like_a_block();
        given.frames();
        given.pairs();
        given.memory();
    }
}

struct Given<'r> {
    reader: &'r Reader,
    settings: Settings,
}

impl Given<'_> {
    fn variable(&self, number: u32, value: i64) -> Vec<u8> {
        match self.settings.order {
            0 => [b"V", &number.to_le_bytes()[..], &value.to_le_bytes()].concat(),
            _ => [b"V", &number.to_be_bytes()[..], &value.to_be_bytes()].concat(),
        }
    }

    /// Memory at address 0, which reads alike in both byte orders; its length is that of a variable's block.
    fn memory_of(&self, bytes: [u8; 13]) -> Vec<u8> {
        let length = if self.settings.order == 0 { b"\x0D\0" } else { b"\0\x0D" };
        [b"M\0\0\0\0\0\0\0\0", &length[..], &bytes].concat()
    }

    /// A trace with register blocks as long as a variable's block.
    fn trace(&self, frames: &[&[u8]]) -> Vec<u8> {
        let line: &[u8] = if self.settings.base == 10 { b"R 13\n" } else { b"R d\n" };
        with_frames(self.settings, line, frames)
    }

    /// Holds a frame of these blocks to the variable's value, or to none.
    fn holds(&self, blocks: &[&[u8]], value: Option<i64>) {
        let file = self.trace(&[&blocks.concat()]);
        let answer = value.map_or(Value { refusal: 12, value: 0 }, |value| Value { refusal: 0, value });
        assert_eq!((self.reader.variable)(self.settings, &file, 0, NUMBER), answer);
        for n in [0, 1] {
            assert_eq!((self.reader.pair_variable)(self.settings, &file, &file, n, NUMBER), answer);
        }
    }

    fn others(&self) -> [Vec<u8>; 3] {
        [self.variable(OTHER, 9), self.memory_of([0x11; 13]), [b"R", &[0xAA; 13][..]].concat()]
    }

    fn one_block(&self) {
        let [other, memory, registers] = self.others();
        let own = self.variable(NUMBER, 5);
        self.holds(&[&own], Some(5));
        self.holds(&[&own, &other, &memory, &registers], Some(5));
        self.holds(&[&other, &memory, &registers, &own], Some(5));
        self.holds(&[&registers, &other, &own, &memory, &other], Some(5));
        self.holds(&[], None);
        self.holds(&[&other, &memory, &registers], None);
    }

    fn several_blocks(&self) {
        let [other, memory, registers] = self.others();
        let [five, six, seven, less] = [5, 6, 7, -1].map(|value| self.variable(NUMBER, value));
        self.holds(&[&five, &six], Some(6));
        self.holds(&[&six, &five], Some(5));
        self.holds(&[&six, &less], Some(-1));
        self.holds(&[&six, &six], Some(6));
        self.holds(&[&five, &memory, &six], Some(6));
        self.holds(&[&five, &registers, &other, &six, &memory, &other], Some(6));
        self.holds(&[&five, &seven, &six], Some(6));
        self.holds(&[&five, &six, &five], Some(5));
        for beside in BESIDE.map(|number| self.variable(number, 9)) {
            self.holds(&[&five, &beside], Some(5));
            self.holds(&[&beside], None);
        }
        self.holds(&[&other, &five, &memory, &seven, &registers, &six, &other], Some(6));
    }

    /// A whole block with the number in bytes of memory and of registers.
    fn bytes_like_a_block(&self) {
        let own = self.variable(NUMBER, 5);
        let bytes: [u8; 13] = self.variable(NUMBER, 6).try_into().expect("13 bytes");
        let [memory, registers] = [self.memory_of(bytes), [b"R", &bytes[..]].concat()];
        for like in [&memory, &registers] {
            self.holds(&[&own, like], Some(5));
            self.holds(&[like, &own], Some(5));
            self.holds(&[like], None);
        }
        self.holds(&[&own, &memory, &self.variable(NUMBER, 7), &registers], Some(7));
    }

    /// Each frame answers for itself.
    fn frames(&self) {
        let [five, six, seven] = [5, 6, 7].map(|value| self.variable(NUMBER, value));
        let file = self.trace(&[&[five, six].concat(), b"", &seven]);
        let answers = [0, 1, 2, 3].map(|n| (self.reader.variable)(self.settings, &file, n, NUMBER));
        assert_eq!(answers.map(|answer| (answer.refusal, answer.value)), [(0, 6), (12, 0), (0, 7), (12, 0)]);
    }

    /// A pair of unlike traces: of each the latest in its own frame.
    fn pairs(&self) {
        let of = |values: [i64; 3]| self.trace(&[&values.map(|value| self.variable(NUMBER, value)).concat()]);
        let [first, second] = [of([1, 2, 3]), of([6, 5, 4])];
        let answers = [0, 1].map(|n| (self.reader.pair_variable)(self.settings, &first, &second, n, NUMBER).value);
        assert_eq!(answers, [3, 4]);
    }

    /// Memory keeps to the earliest block that covers the address.
    fn memory(&self) {
        let file = self.trace(&[&[self.memory_of([0x11; 13]), self.memory_of([0x22; 13])].concat()]);
        let start = file.len() - 2 * 24;
        let places = [0, 12].map(|address| (self.reader.memory_place)(self.settings, &file, 0, address));
        let place = |place, length| Place { refusal: 0, place, length };
        assert_eq!(places, [place(start + 11, 13), place(start + 23, 1)]);
    }
}
