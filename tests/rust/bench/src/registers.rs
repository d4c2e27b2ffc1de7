//! v0 of every frame through the Rust wrapper, beside the frame table that its place comes from.
//!
//!     cargo run --offline --release --manifest-path tests/rust/bench/Cargo.toml -- registers
use crate::files::{self, Frames, LONGEST};
use crate::table::{marked, order_name};
use crate::timing::{in_turn, Call};
use std::hint::black_box;
use tufakpeni::{Order, Refusal, Trace};
use tufakpeni_tests::c::Settings;
use tufakpeni_tests::library::LIBRARY;
use tufakpeni_tests::reader::{fields, Record};

/// Where v0 stands in the registers of the board.
const V0: std::ops::Range<usize> = 264..280;

/// v0 of every frame is not to cost more than so many times the frame table, with the opening or without it.
const GOAL: f64 = 2.0;

const READ: &str = "a file that is read to its end, with registers in every frame";

struct Work<'f> {
    order: Order,
    settings: Settings,
    file: &'f [u8],
    trace: Trace<'f>,
    records: Vec<Record>,
}

impl<'f> Work<'f> {
    fn new(big: bool, file: &'f [u8]) -> Work<'f> {
        let order = if big { Order::Big } else { Order::Little };
        let trace = Trace::open(order, file).expect(READ);
        let records = vec![[1; 4]; trace.frame_count()];
        Work { order, settings: (LIBRARY.default_settings)(u8::from(big)), file, trace, records }
    }

    /// The wrapper has the registers where the library's own table has them, in every frame.
    fn compare(&mut self) {
        table(self);
        let places = self.records.iter().map(|record| Some(fields(record).registers_place));
        assert!(self.trace.frames().map(|frame| frame.registers_place()).eq(places));
        assert!(self.trace.frames().all(|frame| frame.registers().is_ok_and(|registers| registers.len() == 776)));
    }
}

fn table(work: &mut Work) {
    black_box((LIBRARY.frame_table)(work.settings, black_box(work.file), &mut work.records));
}

fn count_and_table(work: &mut Work) {
    black_box((LIBRARY.frame_count)(work.settings, black_box(work.file)));
    table(work);
}

fn opening(work: &mut Work) {
    black_box(Trace::open(work.order, black_box(work.file))).expect(READ);
}

/// The sum of every v0, which is handed on, so that none of them can be left unread.
fn sum_of_v0(trace: &Trace) -> Result<u128, Refusal> {
    let v0 = |registers: &[u8]| u128::from_le_bytes(registers[V0].try_into().expect("16 bytes"));
    trace.frames().try_fold(0, |sum: u128, frame| Ok(sum.wrapping_add(v0(frame.registers()?))))
}

fn v0(work: &mut Work) {
    black_box(sum_of_v0(black_box(&work.trace))).expect(READ);
}

fn opening_and_v0(work: &mut Work) {
    let trace = Trace::open(work.order, black_box(work.file)).expect(READ);
    black_box(sum_of_v0(&trace)).expect(READ);
}

/// What is measured, and its name.
type Measured = (&'static str, fn(&mut Work));

const CALLS: [Measured; 5] = [
    ("frame table", table),
    ("number of frames and frame table", count_and_table),
    ("wrapper: opening", opening),
    ("wrapper: v0 of every frame, opened before", v0),
    ("wrapper: opening, and v0 of every frame", opening_and_v0),
];

pub fn run(rounds: usize) {
    println!("Each time is the least of {rounds} rounds, in which the calls run in turn; the median is that of the rounds' own ratios to");
    println!("the frame table. A ratio above {GOAL} is bold.\n");
    println!("| 64 MiB of 796-byte frames | order | ms | to the table | median |");
    println!("|---|---|---:|---:|---:|");
    for big in [false, true] {
        let file = files::trace(Frames::Registers, false, big, LONGEST);
        let mut work = Work::new(big, &file);
        work.compare();
        let times = in_turn(rounds, &mut work, CALLS.each_ref().map(|(_, call)| call as Call<Work>));
        for ((name, _), own) in CALLS.iter().zip(&times) {
            let ratio = marked(own.least() / times[0].least(), GOAL);
            let median = marked(own.median_ratio(&times[0]), GOAL);
            println!("| {name} | {} | {:.3} | {ratio} | {median} |", order_name(big), own.least() * 1e3);
        }
    }
}
