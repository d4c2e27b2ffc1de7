//! Every call of the library compared with the second reader's, on made files of every sort.

use tufakpeni_tests::c::Settings;
use tufakpeni_tests::compare::{Based, Comparer, Met};
use tufakpeni_tests::library::LIBRARY;
use tufakpeni_tests::make::dat::Dat;
use tufakpeni_tests::make::gdb::{memory_at, registers, variable, Frame, Trace};
use tufakpeni_tests::make::{any_dat, any_trace, damage, longest, Made, MadeTrace, Random};
use tufakpeni_tests::run::{files, seed, Tally};
use tufakpeni_tests::second::MAX_LENGTH;

/// How many files of each format are shortened at every place.
const SHORTENED: usize = 40;

struct Traces<'r> {
    comparer: Comparer<'r>,
    random: Random,
    tally: Tally,
}

impl Traces<'_> {
    fn compare(&mut self, trace: &MadeTrace) {
        let result = self.comparer.made_trace(&mut self.random, trace);
        let files = [trace.made.file(), &trace.partner];
        self.tally.count(&mut self.comparer, trace.made.name, result, &files);
    }

    /// Only as a pair, both ways.
    fn compare_joins(&mut self, trace: &MadeTrace) {
        let (settings, file, partner) = (trace.settings, trace.made.file(), &trace.partner[..]);
        let result = self.comparer.pair(&mut self.random, settings, file, partner);
        let result = result.and_then(|()| self.comparer.pair(&mut self.random, settings, partner, file));
        self.tally.count(&mut self.comparer, trace.made.name, result, &[file, partner]);
    }

    fn compare_alone(&mut self, settings: Settings, made: Made, partner: &[u8]) {
        self.compare(&MadeTrace { made, settings, partner: partner.to_vec() });
    }
}

#[test]
fn default_settings() {
    let mut comparer = Comparer::new(&LIBRARY);
    comparer.default_settings().unwrap_or_else(|difference| panic!("{difference:?}"));
    println!("default settings: {} calls compared, no difference", comparer.calls);
}

#[test]
fn gdb_traces() {
    let seed = seed();
    let random = Random::new(seed);
    let mut traces = Traces { comparer: Comparer::new(&LIBRARY), random, tally: Tally::new("GDB", seed) };
    let wanted = files() * 3 / 5;
    every_front_and_byte_of_traces(&mut traces);
    every_number_as_a_setting(&mut traces);
    longest_traces(&mut traces);
    // What chance makes has to meet everything by itself, but for the length limit.
    let refusals = (2..=13).chain([18, 24]).map(Met::Refusal);
    let met = refusals.chain([false, true].map(Met::Marked)).chain(Met::joins()).chain(Based::ALL.map(Met::Based));
    let met = met.map(|met| (met, wanted / 100));
    // These are counted apart for each byte order, and those about registers for each base.
    let met = met.chain(Met::all_of_frames().map(|met| (met, wanted / 400)));
    let mut least: Vec<_> = met.map(|(met, files)| (met, traces.tally.met(met) + files)).collect();
    least.push((Met::Refusal(1), 16));
    for index in 0..wanted {
        traces.random = Random::of(seed, index);
        let trace = any_trace(&mut traces.random);
        traces.compare(&trace);
    }
    traces.tally.finish(&least);
}

/// A trace of two frames with a block of each kind.
fn small_trace(settings: Settings, marked: bool) -> Trace {
    let random = &mut Random::new(1);
    let order = settings.order;
    let blocks = vec![registers(random, 2), memory_at(order, u64::MAX, b"MR"), variable(random, order)];
    let frames = vec![Frame::of(blocks), Frame::of(Vec::new())];
    Trace { settings, lines: vec![b"R 02".to_vec(), b"status 0".to_vec()], register_size: Some(2), frames, marked }
}

/// A trace with one register block in its first frame and two in its second, and something between them.
fn second_registers(settings: Settings) -> Trace {
    let [block, memory] = [b"R\x07".to_vec(), memory_at(settings.order, 0, b"")];
    let frames = vec![Frame::of(vec![block.clone()]), Frame::of(vec![block.clone(), memory, block])];
    Trace { lines: vec![b"R 1".to_vec()], register_size: Some(1), frames, ..Trace::bare(settings) }
}

fn every_front_and_byte_of_traces(traces: &mut Traces) {
    for index in 0..SHORTENED {
        let settings = Settings { order: (index % 2) as u8, base: [10, 16][index / 2 % 2] };
        let trace = Trace::with(&mut traces.random, settings, [None, Some(12), Some(3)][index % 3]);
        let bytes = trace.bytes();
        for made in damage::every_front(&bytes) {
            traces.compare_alone(settings, made, &bytes);
        }
    }
    for (order, base, marked) in [(0, 10, false), (0, 16, true), (1, 16, false), (1, 10, true)] {
        let settings = Settings { order, base };
        let bytes = small_trace(settings, marked).bytes();
        // Joined with its like in one order and with the other marking in the other.
        let partner = small_trace(settings, marked == (order == 0)).bytes();
        for made in damage::every_byte(&bytes) {
            traces.compare_alone(settings, made, &partner);
        }
    }
    for settings in [Settings { order: 0, base: 16 }, Settings { order: 1, base: 10 }] {
        let trace = second_registers(settings);
        let (bytes, opening) = (trace.bytes(), trace.opening());
        for made in damage::every_front(&bytes).chain(damage::every_byte(&bytes)) {
            traces.compare_alone(settings, made, &opening);
        }
    }
}

/// Every number as the base and every number as the byte order, for a trace with an R line, one without, and no trace.
fn every_number_as_a_setting(traces: &mut Traces) {
    let small = small_trace(Settings { order: 0, base: 16 }, true);
    let files = [small.bytes(), Trace::bare(small.settings).bytes(), Vec::new()];
    for number in 0..=u8::MAX {
        let bases = [0, 1].map(|order| Settings { order, base: number });
        let orders = [10, 16].map(|base| Settings { order: number, base });
        for settings in [bases, orders].concat() {
            for file in &files {
                let result = traces.comparer.trace(&mut traces.random, settings, file, file);
                traces.tally.count(&mut traces.comparer, "every setting", result.map(drop), &[file]);
            }
        }
    }
}

/// A file as long as may be and one byte longer, a join's result likewise, and many frames.
fn longest_traces(traces: &mut Traces) {
    for settings in [Settings { order: 0, base: 16 }, Settings { order: 1, base: 10 }] {
        let opening = Trace::bare(settings).opening();
        for (beyond, refusal) in [(0, 0), (1, 1)] {
            for marked in [false, true] {
                let made = Made::new("longest", longest::trace(settings, marked, MAX_LENGTH + beyond), Some(refusal));
                traces.compare_alone(settings, made, &opening);
            }
            for joined in longest::joined(settings, beyond) {
                traces.compare_joins(&joined);
            }
        }
        traces.compare_alone(settings, Made::new("many", longest::many(settings), Some(0)), &opening);
        let long = longest::filled(opening.clone(), 1);
        traces.compare_alone(settings, Made::new("bad head, long partner", b"x".to_vec(), Some(3)), &long);
        traces.compare_alone(settings, Made::new("short, long partner", opening, Some(0)), &long);
    }
}

struct Dats<'r> {
    comparer: Comparer<'r>,
    tally: Tally,
}

impl Dats<'_> {
    fn compare(&mut self, made: &Made) {
        let result = self.comparer.made_dat(made);
        self.tally.count(&mut self.comparer, made.name, result, &[made.file()]);
    }
}

#[test]
fn dat_files() {
    let seed = seed();
    let mut dats = Dats { comparer: Comparer::new(&LIBRARY), tally: Tally::new("trace.dat", seed) };
    let wanted = files() - files() * 3 / 5;
    every_front_and_byte_of_dats(&mut dats, &mut Random::new(seed));
    longest_dats(&mut dats);
    for index in 0..wanted {
        dats.compare(&any_dat(&mut Random::of(seed, index)));
    }
    let often = dats.tally.files / 100;
    let refusals = [12, 14, 15, 16, 17].map(|number| (Met::Refusal(number), often));
    // These are counted apart for each page size, sort of range and byte order.
    let ranges = Met::all_ranges().map(|met| (met, often / 30));
    let least: Vec<_> = refusals.into_iter().chain([(Met::Refusal(1), 3)]).chain(ranges).collect();
    dats.tally.finish(&least);
}

fn every_front_and_byte_of_dats(dats: &mut Dats, random: &mut Random) {
    for _ in 0..SHORTENED {
        let bytes = Dat::valid(random).header().bytes;
        damage::every_front(&bytes).for_each(|made| dats.compare(&made));
    }
    for order in [0, 1] {
        let bytes = Dat::bare(order, 4_096).bytes();
        damage::every_byte(&bytes).for_each(|made| dats.compare(&made));
    }
}

/// A file as long as may be and one byte longer, with a header and without.
fn longest_dats(dats: &mut Dats) {
    let of_order = |order, beyond| longest::filled(Dat::bare(order, 1_024).bytes(), beyond);
    for (bytes, refusal) in [
        (of_order(0, 0), 0),
        (of_order(1, 0), 0),
        (of_order(0, 1), 1),
        (of_order(1, 1), 1),
        (longest::filled(Vec::new(), 0), 15),
        (longest::filled(Vec::new(), 1), 1),
    ] {
        dats.compare(&Made::new("longest", bytes, Some(refusal)));
    }
}
