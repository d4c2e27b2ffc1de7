//! The summary of trace.dat files, and a CPU's range.
use crate::files::{self, Sizes};
use crate::question::Side;
use crate::table::Row;
use crate::timing::in_turn;
use std::hint::black_box;

const LARGE: Sizes = Sizes { systems: 20_000, events: 20, format: 100, kallsyms: 16 << 20, cpus: 8, stride: 1 };
const CPUS: Sizes = Sizes { systems: 100, events: 20, format: 700, kallsyms: 1 << 20, cpus: 1024, stride: 1 };

const FILES: [(&str, Sizes); 3] = [
    ("trace.dat, large header", LARGE),
    ("trace.dat, 1,024 CPUs in order", CPUS),
    ("trace.dat, 1,024 CPUs out of order", Sizes { stride: 421, ..CPUS }),
];

const GOAL: f64 = 1.2;

/// A question of one side, about a file and its last CPU.
type Ask = fn(Side, &[u8], usize);

const QUESTIONS: [(&str, Ask); 2] = [("summary", summary), ("range of the last CPU", last_range)];

fn summary(side: Side, file: &[u8], _: usize) {
    black_box((side.reader().dat_read)(black_box(file)));
}

fn last_range(side: Side, file: &[u8], last: usize) {
    black_box((side.reader().dat_cpu_range)(black_box(file), black_box(last)));
}

pub fn run(rounds: usize) {
    for (name, sizes) in &FILES {
        for big in [false, true] {
            let mut file = files::dat(sizes, big);
            let answers = [Side::Library, Side::Plain].map(|side| (side.reader().dat_read)(&file));
            assert_eq!(answers[0], answers[1], "{name}");
            assert_eq!(answers[0].refusal, 0, "{name}");
            let last = sizes.cpus - 1;
            let [one, other] = [Side::Library, Side::Plain].map(|side| (side.reader().dat_cpu_range)(&file, last));
            assert_eq!(one, other, "{name}");
            let bytes = answers[0].body.place;
            for (question, ask) in QUESTIONS {
                let library = |file: &mut [u8]| ask(Side::Library, file, last);
                let plain = |file: &mut [u8]| ask(Side::Plain, file, last);
                let [library, plain] = in_turn(rounds, &mut file[..], [&library, &plain]);
                Row { file: name, big, question, bytes, library, plain, copy: None, goal: GOAL }.print();
            }
        }
    }
}
