//! The data of one frame by its number, beside plain Rust that reads the same parts of the file.
//!
//!     cargo run --offline --release --manifest-path tests/rust/bench/Cargo.toml -- frame
use crate::files::{self, Frames, LONGEST};
use crate::question::Side;
use crate::table::{marked, order_name};
use crate::timing::in_turn;
use std::hint::black_box;
use tufakpeni_tests::c::{FramePart, Settings};

/// The ratio to plain Rust that is not to be passed.
const GOAL: f64 = 1.2;

const FILES: [(&str, Frames); 3] = [
    ("796-byte frames", Frames::Registers),
    ("19-byte frames", Frames::Variable),
    ("one frame of 64 MiB", Frames::Long),
];

/// A frame that is asked for.
struct Work {
    settings: Settings,
    file: Vec<u8>,
    n: usize,
}

impl Work {
    fn ask(&self, side: Side) -> FramePart {
        (side.reader().frame_place)(self.settings, black_box(&self.file), black_box(self.n))
    }

    /// Both readers give one answer, and it has n + 1 heads.
    fn compare(&self) {
        let [library, plain] = [Side::Library, Side::Plain].map(|side| self.ask(side));
        assert_eq!(library, plain, "frame {}", self.n);
        assert_eq!((library.refusal, library.heads), (0, self.n + 1), "frame {}", self.n);
    }
}

/// The first frame, one further on and the last, as far as they are there.
fn numbers(count: usize) -> Vec<usize> {
    let mut numbers = vec![0, 1_000, count - 1];
    numbers.retain(|&n| n < count);
    numbers.dedup();
    numbers
}

pub fn run(rounds: usize) {
    println!("Each time is the least of {rounds} rounds, in which the library and plain Rust run in turn, each as often as two milliseconds");
    println!("hold; the median is that of the rounds' own ratios. Every answer was compared. A ratio above {GOAL} is bold.\n");
    println!("| 64 MiB of | order | frame | library, µs | plain Rust, µs | to plain | median |");
    println!("|---|---|---:|---:|---:|---:|---:|");
    for (name, frames) in FILES {
        [false, true].into_iter().for_each(|big| print_rows(rounds, name, frames, big));
    }
    println!();
}

fn print_rows(rounds: usize, name: &str, frames: Frames, big: bool) {
    let settings = (Side::Plain.reader().default_settings)(u8::from(big));
    let file = files::trace(frames, false, big, LONGEST);
    let count = (Side::Plain.reader().frame_count)(settings, &file).count;
    let mut work = Work { settings, file, n: 0 };
    for n in numbers(count) {
        work.n = n;
        print_row(rounds, name, big, &mut work);
    }
}

fn print_row(rounds: usize, name: &str, big: bool, work: &mut Work) {
    work.compare();
    let [library, plain] = [Side::Library, Side::Plain].map(|side| {
        move |work: &mut Work| {
            black_box(work.ask(side));
        }
    });
    let [library, plain] = in_turn(rounds, work, [&library, &plain]);
    let ratio = marked(library.least() / plain.least(), GOAL);
    let median = marked(library.median_ratio(&plain), GOAL);
    let (order, n) = (order_name(big), work.n);
    let [library, plain] = [library, plain].map(|times| times.least() * 1e6);
    println!("| {name} | {order} | {n} | {library:.3} | {plain:.3} | {ratio} | {median} |");
}
