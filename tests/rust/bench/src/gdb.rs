//! Questions about GDB traces, cut and join.
use crate::files::{self, Frames, LAST_ADDRESS, LONGEST, NUMBERS};
use crate::question::{Side, Told};
use crate::table::Row;
use crate::timing::{in_turn, Times};
use std::hint::black_box;
use tufakpeni_tests::answers::{self, read};
use tufakpeni_tests::c::{Range, Selection, Settings};
use tufakpeni_tests::reader::{fields, Record};
use tufakpeni_tests::second::gdb::{Frame, Row as TableRow};
use tufakpeni_tests::second::Part;

/// What the questions are asked about, and what they write to.
struct Work {
    settings: Settings,
    file: Vec<u8>,
    /// Two traces of half the length, to be joined.
    first: Vec<u8>,
    second: Vec<u8>,
    out: Vec<u8>,
    /// The length of the cut that keeps half of the frames.
    half: usize,
    /// The library's frame table and that of plain Rust.
    records: Vec<Record>,
    rows: Vec<TableRow>,
}

impl Work {
    /// Every buffer is written here, so that no call is the first to touch one.
    fn new(frames: Frames, marked: bool, big: bool) -> Work {
        let file = files::trace(frames, marked, big, LONGEST);
        let joined = files::trace(frames, marked, big, LONGEST / 2);
        let settings = (Side::Plain.reader().default_settings)(u8::from(big));
        let counted = (Side::Plain.reader().frame_count)(settings, &file);
        assert_eq!(counted.refusal, 0, "a file that is read to its end");
        let frame = Frame { tracepoint: 1, data: Part { place: 1, length: 1 } };
        let row = TableRow { frame, registers: None };
        let mut out = vec![1; LONGEST];
        let half = (Side::Plain.reader().cut)(settings, &file, half_of_numbers(), &mut out).length;
        Work {
            settings,
            file,
            second: joined.clone(),
            first: joined,
            out,
            half,
            records: vec![[1; 4]; counted.count],
            rows: vec![row; counted.count],
        }
    }

    fn last(&self) -> usize {
        self.records.len() - 1
    }
}

fn frame_count(side: Side, work: &mut Work) -> Told {
    let answer = (side.reader().frame_count)(work.settings, black_box(&work.file));
    (answer.refusal, answer.count, 0)
}

fn end_mark(side: Side, work: &mut Work) -> Told {
    let answer = (side.reader().end_mark)(work.settings, black_box(&work.file));
    (answer.refusal, answer.marked.into(), 0)
}

/// The second reader's own call, since its answer in the library's struct makes a copy of the table.
fn frame_table(side: Side, work: &mut Work) -> Told {
    let file = black_box(&work.file[..]);
    match side {
        Side::Library => {
            let answer = (side.reader().frame_table)(work.settings, file, &mut work.records);
            (answer.refusal, answer.count, 0)
        }
        Side::Plain => match read(work.settings, file).and_then(|trace| trace.frame_table(&mut work.rows)) {
            Ok(count) => (0, count, 0),
            Err(refusal) => (refusal as u8, 0, 0),
        },
    }
}

fn last_memory(side: Side, work: &mut Work) -> Told {
    let answer = (side.reader().memory_place)(work.settings, black_box(&work.file), work.last(), LAST_ADDRESS + 5);
    (answer.refusal, answer.place, answer.length)
}

fn last_registers(side: Side, work: &mut Work) -> Told {
    let answer = (side.reader().registers_place)(work.settings, black_box(&work.file), work.last());
    (answer.refusal, answer.place, answer.length)
}

/// A variable that the frame has in its first block too, where it has several.
fn last_variable(side: Side, work: &mut Work) -> Told {
    let answer = (side.reader().variable)(work.settings, black_box(&work.file), work.last(), 1);
    (answer.refusal, answer.value as usize, 0)
}

/// The selection that keeps half of the tracepoint numbers.
fn half_of_numbers() -> Selection {
    let mut selection = Selection { count: 1, keep: 1, ..Selection::default() };
    selection.ranges[0] = Range { low: 1, high: NUMBERS as u16 / 2 };
    selection
}

/// The output is as long as the file: the library need not look for the cut's length before it writes, plain Rust does.
fn cut(side: Side, work: &mut Work) -> Told {
    cut_into(side, work, work.out.len())
}

/// The output is as long as the cut: both readers walk the frames twice.
fn cut_that_just_fits(side: Side, work: &mut Work) -> Told {
    cut_into(side, work, work.half)
}

fn cut_into(side: Side, work: &mut Work, room: usize) -> Told {
    let answer = (side.reader().cut)(work.settings, black_box(&work.file), half_of_numbers(), &mut work.out[..room]);
    (answer.refusal, answer.length, 0)
}

fn join(side: Side, work: &mut Work) -> Told {
    let (first, second) = black_box((&work.first, &work.second));
    let answer = (side.reader().join)(work.settings, first, second, &mut work.out);
    (answer.refusal, answer.length, 0)
}

fn copy_of_cut(work: &mut Work, length: usize) {
    work.out[..length].copy_from_slice(black_box(&work.file[..length]));
}

fn copy_of_join(work: &mut Work, length: usize) {
    let (front, back) = work.out[..length].split_at_mut(work.first.len());
    front.copy_from_slice(black_box(&work.first));
    back.copy_from_slice(black_box(&work.second[work.second.len() - back.len()..]));
}

struct Question {
    name: &'static str,
    ask: fn(Side, &mut Work) -> Told,
    /// A copy as long as the result, where the question writes one.
    copy: Option<fn(&mut Work, usize)>,
}

const QUESTIONS: [Question; 9] = [
    Question { name: "number of frames", ask: frame_count, copy: None },
    Question { name: "end mark", ask: end_mark, copy: None },
    Question { name: "frame table", ask: frame_table, copy: None },
    Question { name: "memory in the last frame", ask: last_memory, copy: None },
    Question { name: "registers of the last frame", ask: last_registers, copy: None },
    Question { name: "variable in the last frame", ask: last_variable, copy: None },
    Question { name: "cut, half kept", ask: cut, copy: Some(copy_of_cut) },
    Question { name: "the same, output just fits", ask: cut_that_just_fits, copy: Some(copy_of_cut) },
    Question { name: "join of two halves", ask: join, copy: Some(copy_of_join) },
];

impl Question {
    /// Both readers give one answer and one output; the answer.
    fn compare(&self, work: &mut Work) -> Told {
        work.out.fill(1);
        let library = (self.ask)(Side::Library, work);
        let written = work.out.clone();
        work.out.fill(1);
        let plain = (self.ask)(Side::Plain, work);
        assert_eq!(library, plain, "{}", self.name);
        assert!(written == work.out, "{}: the outputs differ", self.name);
        library
    }

    /// The times of the library, of plain Rust and of the copy.
    fn times(&self, rounds: usize, work: &mut Work, length: usize) -> (Times, Times, Option<Times>) {
        let [library, plain] = [Side::Library, Side::Plain].map(|side| {
            move |work: &mut Work| {
                black_box((self.ask)(side, work));
            }
        });
        match self.copy {
            None => {
                let [library, plain] = in_turn(rounds, work, [&library, &plain]);
                (library, plain, None)
            }
            Some(copy) => {
                let copy = |work: &mut Work| copy(work, length);
                let [library, plain, copy] = in_turn(rounds, work, [&library, &plain, &copy]);
                (library, plain, Some(copy))
            }
        }
    }
}

fn compare_tables(work: &Work) {
    let same = work.records.iter().zip(&work.rows).all(|(record, row)| fields(record) == answers::frame(row));
    assert!(same, "the frame tables differ");
}

/// Each kind of frame, whether the end mark stands behind them, and the ratio to plain Rust that is not to be passed.
const FILES: [(&str, Frames, bool, f64); 6] = [
    ("796-byte frames", Frames::Registers, false, 1.05),
    ("189-byte frames", Frames::Small, false, 1.2),
    ("114-byte frames", Frames::Memory, false, 1.2),
    ("19-byte frames", Frames::Variable, false, 1.2),
    ("19-byte frames, end mark", Frames::Variable, true, 1.2),
    ("one frame of 64 MiB", Frames::Long, false, 1.2),
];

pub fn run(rounds: usize) {
    for (file, frames, marked, goal) in FILES {
        for big in [false, true] {
            let mut work = Work::new(frames, marked, big);
            for question in &QUESTIONS {
                let (_, length, _) = question.compare(&mut work);
                let (library, plain, copy) = question.times(rounds, &mut work, length);
                let bytes = work.file.len();
                Row { file, big, question: question.name, bytes, library, plain, copy, goal }.print();
            }
            compare_tables(&work);
        }
    }
}
