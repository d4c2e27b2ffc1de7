//! Slips about what the frame table says of registers.

use super::{Slip, FILES};
use tufakpeni_tests::answers::SECOND;
use tufakpeni_tests::c::{Count, Frame, Settings};
use tufakpeni_tests::compare::tables::all_agree;
use tufakpeni_tests::make::{any_trace, Random};
use tufakpeni_tests::reader::{fields, write_fields, Reader, Record};
use tufakpeni_tests::run::seed;

/// A reader whose records say this of frame n: the place of its registers, or that it has none.
macro_rules! telling {
    (|$given:ident, $n:ident| $place:expr) => {
        Reader { frame_table: |settings, file, records| told(settings, file, records, |$given, $n| $place), ..SECOND }
    };
}

/// What the records say.
pub const RECORD_SLIPS: [Slip; 17] = [
    ("the place of the letter", telling!(|given, n| given.own(n).map(|place| place - 1))),
    ("the place sixteen bytes late", telling!(|given, n| given.own(n).map(|place| place + 16))),
    ("the place in the frame's data", telling!(|given, n| given.own(n).map(|place| place - given.rows[n].place))),
    ("the place of the first `R` among the data", telling!(|given, n| given.own(n).and(given.letter(n)))),
    ("yes and 0 where there are none", telling!(|given, n| given.own(n).or(Some(0)))),
    ("the first `R` among the data where there are none", telling!(|given, n| given.own(n).or(given.letter(n)))),
    ("the frame before's where there are none", telling!(|given, n| given.own(n).or(given.before(n)))),
    ("the last ones met where there are none", telling!(|given, n| given.own(n).or(given.last_met(n)))),
    ("the frame before's in every record", telling!(|given, n| given.before(n))),
    ("the first frame's in every record", telling!(|given, _n| given.own(0))),
    ("none in every record", telling!(|_given, _n| None)),
    ("none of size 0", telling!(|given, n| given.own(n).filter(|_| given.size(n) > 0))),
    ("none but those that come first", telling!(|given, n| given.own(n).filter(|_| given.is_first(n)))),
    ("none of those that come first", telling!(|given, n| given.own(n).filter(|_| !given.is_first(n)))),
    ("none in the last record", telling!(|given, n| given.own(n).filter(|_| n + 1 < given.rows.len()))),
    ("none in big", telling!(|given, n| given.own(n).filter(|_| given.settings.order == 0))),
    ("none in base 10", telling!(|given, n| given.own(n).filter(|_| given.settings.base == 16))),
];

/// What is written where.
pub const WRITE_SLIPS: [Slip; 4] = [
    ("registers written beyond the last frame", Reader { frame_table: beyond, ..SECOND }),
    ("registers written, then no room", Reader { frame_table: registers_first, ..SECOND }),
    ("the place left where there are none", Reader { frame_table: place_left, ..SECOND }),
    ("the yes or no left where there are none", Reader { frame_table: answer_left, ..SECOND }),
];

/// Whether a reader's own records and its own answers about registers differ for some made file.
pub fn seen_by_itself(reader: &Reader) -> bool {
    (0..FILES).any(|index| {
        let trace = any_trace(&mut Random::of(seed(), index));
        !all_agree(reader, trace.settings, trace.made.file())
    })
}

/// A trace, and the right record of each of its frames.
struct Given<'f> {
    settings: Settings,
    file: &'f [u8],
    rows: Vec<Frame>,
}

impl Given<'_> {
    fn own(&self, n: usize) -> Option<usize> {
        let Frame { has_registers, registers_place, .. } = self.rows[n];
        (has_registers == 1).then_some(registers_place)
    }

    fn before(&self, n: usize) -> Option<usize> {
        self.own(n.checked_sub(1)?)
    }

    fn last_met(&self, n: usize) -> Option<usize> {
        (0..n).rev().find_map(|n| self.own(n))
    }

    /// Behind the first byte of the data that is the letter.
    fn letter(&self, n: usize) -> Option<usize> {
        let (place, data) = super::data(self.settings, self.file, n)?;
        Some(place + data.iter().position(|&byte| byte == b'R')? + 1)
    }

    fn size(&self, n: usize) -> usize {
        (SECOND.registers_place)(self.settings, self.file, n).length
    }

    fn is_first(&self, n: usize) -> bool {
        self.own(n) == Some(self.rows[n].place + 1)
    }
}

fn told(settings: Settings, file: &[u8], records: &mut [Record], place: fn(&Given, usize) -> Option<usize>) -> Count {
    let answer = (SECOND.frame_table)(settings, file, records);
    let given = Given { settings, file, rows: records[..answer.count].iter().map(fields).collect() };
    for (n, record) in records[..answer.count].iter_mut().enumerate() {
        write_registers(record, place(&given, n));
    }
    answer
}

/// Writes nothing else of a record.
fn write_registers(record: &mut Record, place: Option<usize>) {
    let (has_registers, registers_place) = (place.is_some().into(), place.unwrap_or(0));
    write_fields(record, Frame { has_registers, registers_place, ..fields(record) });
}

fn beyond(settings: Settings, file: &[u8], records: &mut [Record]) -> Count {
    let answer = (SECOND.frame_table)(settings, file, records);
    if let Some(record) = records.get_mut(answer.count).filter(|_| answer.refusal == 0) {
        write_registers(record, None);
    }
    answer
}

fn registers_first(settings: Settings, file: &[u8], records: &mut [Record]) -> Count {
    for (n, record) in (0..(SECOND.frame_count)(settings, file).count).zip(&mut *records) {
        let registers = (SECOND.registers_place)(settings, file, n);
        write_registers(record, (registers.refusal == 0).then_some(registers.place));
    }
    (SECOND.frame_table)(settings, file, records)
}

/// The right table, with a field of each record without registers as it was lent.
fn left(settings: Settings, file: &[u8], records: &mut [Record], lent: fn(Frame, Frame) -> Frame) -> Count {
    let before = records.to_vec();
    let answer = (SECOND.frame_table)(settings, file, records);
    for (record, before) in records[..answer.count].iter_mut().zip(&before) {
        let right = fields(record);
        if right.has_registers == 0 {
            write_fields(record, lent(right, fields(before)));
        }
    }
    answer
}

fn place_left(settings: Settings, file: &[u8], records: &mut [Record]) -> Count {
    left(settings, file, records, |right, Frame { registers_place, .. }| Frame { registers_place, ..right })
}

fn answer_left(settings: Settings, file: &[u8], records: &mut [Record]) -> Count {
    left(settings, file, records, |right, Frame { has_registers, .. }| Frame { has_registers, ..right })
}
