//! The laws of cuts, joins, frame tables and frames by their numbers, run on made traces of one opening and on random
//! selections through the C interface, in both byte orders and both bases.

use tufakpeni_tests::answers::selection as of_c;
use tufakpeni_tests::c::{Frame, Length, Selection, Settings};
use tufakpeni_tests::compare::partial::by_record;
use tufakpeni_tests::compare::tables::all_agree;
use tufakpeni_tests::letters::Frames;
use tufakpeni_tests::library::LIBRARY;
use tufakpeni_tests::make::gdb::{Trace, END_MARK};
use tufakpeni_tests::make::{any_trace, selection, settings, Random};
use tufakpeni_tests::reader::fields;
use tufakpeni_tests::run::seed;

const ROUNDS: usize = 50_000;
/// A frame's number and size.
const FRAME_HEAD: usize = 6;

/// Three traces of one opening, each marked or not, and two selections.
struct Round {
    settings: Settings,
    opening: Vec<u8>,
    traces: [Vec<u8>; 3],
    /// The first trace's end mark, if any.
    mark: &'static [u8],
    a: Selection,
    b: Selection,
}

impl Round {
    fn new(random: &mut Random) -> Self {
        let settings = settings::right(random);
        let first = Trace::valid(random, settings);
        let traces = [first.bytes(), first.sibling(random).bytes(), first.sibling(random).bytes()];
        let (opening, mark) = (first.opening(), first.mark());
        Round { settings, opening, traces, mark, a: selection::right(random), b: selection::right(random) }
    }

    fn cut(&self, file: &[u8], by: Selection) -> Vec<u8> {
        result(file.len(), |out| (LIBRARY.cut)(self.settings, file, by, out))
    }

    fn join(&self, first: &[u8], second: &[u8]) -> Vec<u8> {
        result(first.len() + second.len(), |out| (LIBRARY.join)(self.settings, first, second, out))
    }

    /// The frames of a trace with their bytes, heads included.
    fn frames<'f>(&self, file: &'f [u8]) -> Vec<(Frame, &'f [u8])> {
        let mut table = vec![[0; 4]; file.len()];
        let answer = (LIBRARY.frame_table)(self.settings, file, &mut table);
        assert_eq!(answer.refusal, 0);
        let frames = table[..answer.count].iter().map(fields);
        frames.map(|frame| (frame, &file[frame.place - FRAME_HEAD..frame.place + frame.size])).collect()
    }

    fn a_join_is_cut_as_its_parts_are(&self) {
        let [first, second, _] = &self.traces;
        let cut_join = self.cut(&self.join(first, second), self.a);
        let joined_cuts = self.join(&self.cut(first, self.a), &self.cut(second, self.a));
        assert_eq!(cut_join, joined_cuts);
    }

    fn cuts_commute(&self) {
        let file = &self.traces[0];
        let mut both = self.opening.clone();
        for (frame, bytes) in self.frames(file) {
            if selects(&self.a, frame.tracepoint) && selects(&self.b, frame.tracepoint) {
                both.extend_from_slice(bytes);
            }
        }
        both.extend_from_slice(self.mark);
        assert_eq!(self.cut(&self.cut(file, self.a), self.b), both);
        assert_eq!(self.cut(&self.cut(file, self.b), self.a), both);
    }

    fn joining_is_associative(&self) {
        let [first, second, third] = &self.traces;
        let from_left = self.join(&self.join(first, second), third);
        let from_right = self.join(first, &self.join(second, third));
        assert_eq!(from_left, from_right);
    }

    fn the_bare_opening_is_a_unit(&self) {
        let file = &self.traces[0];
        assert_eq!(self.join(&self.opening, file), *file);
        assert_eq!(self.join(file, &self.opening), *file);
    }

    /// The bare opening with the mark is none: a trace without the mark gets it.
    fn the_bare_marked_opening_marks(&self) {
        let file = &self.traces[0];
        let bare = [&self.opening, END_MARK].concat();
        let marked = [&file[..file.len() - self.mark.len()], END_MARK].concat();
        assert_eq!(self.join(&bare, file), marked);
        assert_eq!(self.join(file, &bare), marked);
    }

    /// Each frame stands in exactly one of the two cuts, at the place that the frames before it settle.
    fn a_selection_and_its_opposite_part_the_frames(&self) {
        let file = &self.traces[0];
        let cuts = [self.a, (LIBRARY.opposite)(self.a)].map(|by| self.cut(file, by));
        let parted = [self.frames(&cuts[0]), self.frames(&cuts[1])];
        let mut before = [0, 0];
        for (frame, bytes) in self.frames(file) {
            let side = usize::from(!selects(&self.a, frame.tracepoint));
            let (stands, same_bytes) = parted[side][before[side]];
            assert_eq!((stands.tracepoint, same_bytes), (frame.tracepoint, bytes));
            assert_eq!(registers_in(&stands), registers_in(&frame));
            before[side] += 1;
        }
        assert_eq!(before, [parted[0].len(), parted[1].len()]);
        assert_eq!(cuts[0].len() + cuts[1].len(), file.len() + self.opening.len() + self.mark.len());
    }

    /// By its number each frame is that of the table, with one head more than frames before it; past the last is none.
    fn a_frame_by_its_number_is_that_of_the_table(&self) {
        let [first, second, _] = &self.traces;
        for file in [first, &self.cut(first, self.a), &self.join(first, second)] {
            let rows = self.frames(file).into_iter().map(|(row, _)| Some(row));
            for (n, row) in rows.chain([None, None]).enumerate() {
                assert_eq!((LIBRARY.frame_place)(self.settings, file, n), by_record(n, row));
            }
        }
    }

    fn the_table_has_the_registers(&self) {
        let [first, second, _] = &self.traces;
        for file in [first, &self.cut(first, self.a), &self.join(first, second)] {
            assert!(all_agree(&LIBRARY, self.settings, file));
        }
    }
}

/// Alone behind the opening each frame makes a trace that is read or refused as the frame is by its number: its blocks
/// are judged as the whole reading judges them, and no other frame counts. The answer is how many are answered.
fn each_frame_alone_is_the_same(settings: Settings, file: &[u8]) -> usize {
    let Some(Frames { opening, frames, .. }) = Frames::read(settings, file) else { return 0 };
    let mut answered = 0;
    for (n, frame) in frames.iter().enumerate() {
        let data = frame.blocks.concat();
        let alone = (LIBRARY.frame_count)(settings, &[opening, frame.head, &data].concat());
        let part = (LIBRARY.frame_place)(settings, file, n);
        assert_eq!(part.refusal, alone.refusal, "frame {n}");
        if part.refusal == 0 {
            assert_eq!((&file[part.place..part.place + part.length], part.heads), (&data[..], n + 1));
            answered += 1;
        }
    }
    answered
}

/// Where a frame's registers stand in its data, by its record.
fn registers_in(frame: &Frame) -> Option<usize> {
    (frame.has_registers == 1).then(|| frame.registers_place - frame.place)
}

/// The output of a cut or join that may not be refused, up to the length that it tells.
fn result(room: usize, edit: impl FnOnce(&mut [u8]) -> Length) -> Vec<u8> {
    let mut out = vec![0xA5; room];
    let answer = edit(&mut out);
    assert_eq!(answer.refusal, 0);
    out.truncate(answer.length);
    out
}

fn selects(selection: &Selection, tracepoint: u16) -> bool {
    of_c(selection).check().expect("a right selection").selects(tracepoint)
}

#[test]
fn the_laws_hold() {
    let laws: [fn(&Round); 8] = [
        Round::a_join_is_cut_as_its_parts_are,
        Round::cuts_commute,
        Round::joining_is_associative,
        Round::the_bare_opening_is_a_unit,
        Round::the_bare_marked_opening_marks,
        Round::a_selection_and_its_opposite_part_the_frames,
        Round::a_frame_by_its_number_is_that_of_the_table,
        Round::the_table_has_the_registers,
    ];
    let seed = seed();
    for index in 0..ROUNDS {
        let round = Round::new(&mut Random::of(seed, index));
        if std::panic::catch_unwind(|| laws.iter().for_each(|law| law(&round))).is_err() {
            let Round { settings, a, b, traces, .. } = &round;
            panic!("seed {seed}, round {index}: {settings:?}, {a:?}, {b:?}, {traces:02x?}");
        }
    }
    println!("laws: seed {seed}, {ROUNDS} rounds of {} laws", laws.len());
}

#[test]
fn frames_alone() {
    let seed = seed();
    let (mut answered, mut of_refused) = (0, 0);
    for index in 0..ROUNDS {
        let trace = any_trace(&mut Random::of(seed, index));
        let (settings, file) = (trace.settings, trace.made.file());
        let Ok(count) = std::panic::catch_unwind(|| each_frame_alone_is_the_same(settings, file)) else {
            panic!("seed {seed}, file {index}: {settings:?}, {file:02x?}");
        };
        answered += count;
        of_refused += if (LIBRARY.frame_count)(settings, file).refusal == 0 { 0 } else { count };
    }
    println!("laws: seed {seed}, {ROUNDS} files, {answered} frames alone, {of_refused} of them of refused files");
    assert!(of_refused > ROUNDS / 10);
}
