//! That the comparison can fail: readers with one slip each are told from the second reader by the made files.

use tufakpeni_tests::answers::{read, summary, Answer, SECOND};
use tufakpeni_tests::c::{Block, Count, DatSummary, Length, Mark, PairPart, Part, Place, Selection, Settings, Value};
use tufakpeni_tests::compare::Comparer;
use tufakpeni_tests::make::gdb::END_MARK;
use tufakpeni_tests::make::{any_dat, any_trace, longest, Random};
use tufakpeni_tests::reader::{Reader, Record};
use tufakpeni_tests::run::seed;
use tufakpeni_tests::second::dat::{self, CpuRange};
use tufakpeni_tests::second::{Refusal, MAX_LENGTH};

#[path = "slips/alignment.rs"]
mod alignment;
#[path = "slips/base.rs"]
mod base;
#[path = "slips/overlap.rs"]
mod overlap;
#[path = "slips/partial.rs"]
mod partial;
#[path = "slips/registers.rs"]
mod registers;
#[path = "slips/tables.rs"]
mod tables;
#[path = "slips/variables.rs"]
mod variables;

/// By how many made files a slip has to be seen at the latest: far fewer than the gate compares.
const FILES: usize = 6_000;

fn seen_on_traces(reader: &Reader) -> bool {
    let mut comparer = Comparer::new(reader);
    (0..FILES).any(|index| {
        let random = &mut Random::of(seed(), index);
        let trace = any_trace(random);
        comparer.made_trace(random, &trace).is_err()
    })
}

fn seen_on_longest_pairs(reader: &Reader) -> bool {
    let mut comparer = Comparer::new(reader);
    [1, 0].into_iter().flat_map(|beyond| longest::joined((SECOND.default_settings)(0), beyond)).any(|pair| {
        let random = &mut Random::new(seed());
        comparer.pair(random, pair.settings, pair.made.file(), &pair.partner).is_err()
    })
}

fn seen_on_dats(reader: &Reader) -> bool {
    let mut comparer = Comparer::new(reader);
    (0..FILES).any(|index| comparer.made_dat(&any_dat(&mut Random::of(seed(), index))).is_err())
}

fn seen_in_defaults(reader: &Reader) -> bool {
    Comparer::new(reader).default_settings().is_err()
}

#[test]
fn the_second_reader_does_not_differ_from_itself() {
    assert!(!seen_in_defaults(&SECOND));
    assert!(!seen_on_traces(&SECOND));
    assert!(!seen_on_dats(&SECOND));
}

type Slip = (&'static str, Reader);

const QUESTION_SLIPS: [Slip; 11] = [
    ("order not looked at", Reader { frame_count: little_always, ..SECOND }),
    ("R8 taken as an R line", Reader { frame_count: r8_as_r_line, ..SECOND }),
    ("a missing end before a bad line", Reader { frame_count: end_first, ..SECOND }),
    ("a short block before no R line", Reader { frame_count: short_first, ..SECOND }),
    ("registers by letter", Reader { registers_place: registers_by_letter, ..SECOND }),
    ("latest memory", Reader { memory_place: latest_memory, ..SECOND }),
    ("memory that does not wrap", Reader { memory_place: unwrapped_memory, ..SECOND }),
    ("variable without its sign", Reader { variable: unsigned_variable, ..SECOND }),
    ("a field left on a refusal", Reader { block_record: left_field, ..SECOND }),
    ("records written, then no room", Reader { frame_table: records_first, ..SECOND }),
    ("a record too many", Reader { frame_table: record_too_many, ..SECOND }),
];

const MARK_SLIPS: [Slip; 9] = [
    ("a mark of any four bytes", Reader { frame_count: any_four_bytes, ..SECOND }),
    ("bytes behind the mark let through", Reader { frame_count: bytes_behind, ..SECOND }),
    ("6 for a mark cut short", Reader { frame_count: short_mark_as_head, ..SECOND }),
    ("a frame of number 0 read", Reader { frame_count: number_zero_read, ..SECOND }),
    ("7 ahead of 18", Reader { frame_count: size_ahead_of_mark, ..SECOND }),
    ("a number's first byte alone taken for the mark", Reader { frame_count: first_byte_alone, ..SECOND }),
    ("the mark counted as a frame", Reader { frame_count: mark_as_frame, ..SECOND }),
    ("the mark by the last four bytes", Reader { end_mark: last_four_bytes, ..SECOND }),
    ("the mark of a refused file", Reader { end_mark: mark_of_refused, ..SECOND }),
];

const MARKED_EDIT_SLIPS: [Slip; 9] = [
    ("a cut without the mark", Reader { cut: cut_without_mark, ..SECOND }),
    ("a cut to nothing without the mark", Reader { cut: empty_cut_without_mark, ..SECOND }),
    ("a cut written, then no room for the mark", Reader { cut: cut_before_mark, ..SECOND }),
    ("the first trace's mark only", Reader { join: first_mark_only, ..SECOND }),
    ("the second trace's mark only", Reader { join: second_mark_only, ..SECOND }),
    ("two marks", Reader { join: two_marks, ..SECOND }),
    ("the mark between the runs", Reader { join: mark_between, ..SECOND }),
    ("the mark counted twice", Reader { join: mark_twice, ..SECOND }),
    ("a join written, then no room for the mark", Reader { join: join_before_mark, ..SECOND }),
];

const LONGEST_SLIPS: [Slip; 3] = [
    ("the mark not in a join's length", Reader { join: mark_past_limit, ..SECOND }),
    ("the mark not in a pair's length", Reader { pair_place: pair_without_mark, ..SECOND }),
    ("the mark twice in a pair's length", Reader { pair_place: pair_mark_twice, ..SECOND }),
];

const EDIT_SLIPS: [Slip; 9] = [
    ("frames written, then no room", Reader { cut: frames_first, ..SECOND }),
    ("a byte too many", Reader { cut: byte_too_many, ..SECOND }),
    ("high left out", Reader { cut: high_left_out, ..SECOND }),
    ("ranges beyond the count judged", Reader { cut: all_ranges_judged, ..SECOND }),
    ("only keep 1 keeps", Reader { cut: only_one_keeps, ..SECOND }),
    ("openings before the second's faults", Reader { join: openings_first, ..SECOND }),
    ("a pair's border one frame off", Reader { pair_place: border_off, ..SECOND }),
    ("only the first of a pair", Reader { pair_variable: first_only, ..SECOND }),
    ("opposite unchanged", Reader { opposite: |selection| selection, ..SECOND }),
];

const DAT_SLIPS: [Slip; 8] = [
    ("sum in 64 bits", Reader { dat_read: |file| read_with(file, bad_where_it_wraps, two_overlap), ..SECOND }),
    ("empty ranges judged", Reader { dat_read: |file| read_with(file, misaligned, two_overlap), ..SECOND }),
    ("header's end not looked at", Reader { dat_read: |file| read_with(file, bad_alone, two_overlap), ..SECOND }),
    ("overlap of neighbours only", Reader { dat_read: |file| read_with(file, bad, neighbours_overlap), ..SECOND }),
    ("touching taken for overlap", Reader { dat_read: |file| read_with(file, bad, two_touch), ..SECOND }),
    ("a constant cut short taken for a wrong one", Reader { dat_read: wrong_first, ..SECOND }),
    ("overlap judged first", Reader { dat_read: overlap_first, ..SECOND }),
    ("place of options that are not there", Reader { dat_read: options_place, ..SECOND }),
];

fn all_seen(slips: &[Slip], seen: fn(&Reader) -> bool) {
    for (name, slip) in slips {
        assert!(seen(slip), "not seen: {name}");
    }
}

#[test]
fn slips_are_seen() {
    for slips in [&QUESTION_SLIPS[..], &MARK_SLIPS, &EDIT_SLIPS, &MARKED_EDIT_SLIPS] {
        all_seen(slips, seen_on_traces);
    }
    all_seen(&LONGEST_SLIPS, seen_on_longest_pairs);
    all_seen(&DAT_SLIPS, seen_on_dats);
}

#[test]
fn slips_about_the_base_are_seen() {
    for slips in [&base::LINE_SLIPS[..], &base::BASE_SLIPS, &base::CALL_SLIPS] {
        all_seen(slips, seen_on_traces);
    }
    all_seen(&base::DEFAULT_SLIPS, seen_in_defaults);
}

#[test]
fn slips_about_second_registers_are_seen() {
    for slips in [&registers::RULE_SLIPS[..], &registers::ORDER_SLIPS, &registers::FRAME_SLIPS, &registers::CALL_SLIPS]
    {
        all_seen(slips, seen_on_traces);
    }
}

#[test]
fn slips_about_variables_are_seen() {
    all_seen(&variables::SLIPS, seen_on_traces);
}

#[test]
fn slips_about_registers_in_the_table_are_seen() {
    for slips in [&tables::RECORD_SLIPS[..], &tables::WRITE_SLIPS] {
        all_seen(slips, seen_on_traces);
    }
}

#[test]
fn slips_about_a_frame_by_its_number_are_seen() {
    for slips in [&partial::COUNT_SLIPS[..], &partial::READ_SLIPS, &partial::HEAD_SLIPS] {
        all_seen(slips, seen_on_traces);
    }
}

/// By the reader's own answers too, with no second reader.
#[test]
fn records_that_are_not_the_registers_are_seen() {
    assert!(!tables::seen_by_itself(&SECOND));
    all_seen(&tables::RECORD_SLIPS, tables::seen_by_itself);
}

/// The layout's own words, that of a frame's blocks at most one is a register block, over frames taken apart otherwise.
#[test]
fn at_most_one_register_block_is_no_slip() {
    assert!(!seen_on_traces(&registers::AT_MOST_ONE));
}

#[test]
fn slips_about_alignment_are_seen() {
    all_seen(&alignment::SLIPS, seen_on_dats);
}

#[test]
fn the_bits_below_the_page_size_are_no_slip() {
    assert!(!seen_on_dats(&alignment::LOW_BITS));
}

#[test]
fn slips_about_overlaps_are_seen() {
    all_seen(&overlap::SLIPS, seen_on_dats);
}

#[test]
fn units_of_1024_bytes_are_no_slip() {
    assert!(!seen_on_dats(&overlap::UNITS));
}

#[test]
fn whole_numbers_and_all_pairs_are_no_slip() {
    assert!(!seen_on_dats(&Reader { dat_read: |file| read_with(file, bad, two_overlap), ..SECOND }));
}

fn little_always(settings: Settings, file: &[u8]) -> Count {
    (SECOND.frame_count)(Settings { order: 0, ..settings }, file)
}

/// The place of frame n's data and their bytes, where they are answered.
fn data(settings: Settings, file: &[u8], n: usize) -> Option<(usize, &[u8])> {
    let frame = (SECOND.frame_place)(settings, file, n);
    (frame.refusal == 0).then(|| (frame.place, &file[frame.place..frame.place + frame.length]))
}

fn blocks(settings: Settings, file: &[u8], n: usize) -> impl DoubleEndedIterator<Item = Block> {
    let blocks = (0..).map(|k| (SECOND.block_record)(settings, file, n, k));
    blocks.take_while(|block| block.refusal == 0).collect::<Vec<_>>().into_iter()
}

/// An answer that is given, with another in its place where there is one.
fn instead<A: Answer>(right: A, wrong: impl FnOnce() -> Option<A>) -> A {
    if right.refusal() != 0 {
        return right;
    }
    wrong().unwrap_or(right)
}

/// The count of the file with each line `R8` made an R line.
fn r8_as_r_line(settings: Settings, file: &[u8]) -> Count {
    let mut read = file.to_vec();
    while let Some(place) = read.windows(4).position(|bytes| bytes == b"\nR8\n") {
        read.insert(place + 2, b' ');
    }
    (SECOND.frame_count)(settings, &read)
}

/// The answer with one refusal in another's place, where this is so.
fn swapped<A: Answer>(right: A, from: Refusal, to: Refusal, so: bool) -> A {
    if so && right.refusal() == from as u8 {
        A::refused(to as u8)
    } else {
        right
    }
}

fn end_first(settings: Settings, file: &[u8]) -> Count {
    let unended = !file.windows(2).any(|bytes| bytes == b"\n\n");
    swapped((SECOND.frame_count)(settings, file), Refusal::BadLine, Refusal::NoEmptyLine, unended)
}

fn short_first(settings: Settings, file: &[u8]) -> Count {
    let right = (SECOND.frame_count)(settings, file);
    swapped(right, Refusal::NoRegisterSize, Refusal::BlockPastData, file.ends_with(b"R"))
}

/// What stands from a bad end mark on, where that refuses the file, and the number of frames before it.
fn bad_mark(settings: Settings, file: &[u8]) -> Option<(usize, &[u8])> {
    if (SECOND.frame_count)(settings, file).refusal != Refusal::BadMark as u8 {
        return None;
    }
    let unmarked = |end: &usize| (SECOND.end_mark)(settings, &file[..*end]) == Mark { refusal: 0, marked: 0 };
    let place = (0..file.len()).rev().find(unmarked)?;
    Some(((SECOND.frame_count)(settings, &file[..place]).count, &file[place..]))
}

/// The count of the frames before a bad mark that is let through, where it is of this sort.
fn let_through(settings: Settings, file: &[u8], sort: fn(&[u8]) -> bool) -> Count {
    match bad_mark(settings, file) {
        Some((count, mark)) if sort(mark) => Count { refusal: 0, count },
        _ => (SECOND.frame_count)(settings, file),
    }
}

fn any_four_bytes(settings: Settings, file: &[u8]) -> Count {
    let_through(settings, file, |mark| mark.len() == END_MARK.len())
}

fn bytes_behind(settings: Settings, file: &[u8]) -> Count {
    let_through(settings, file, |mark| mark.starts_with(END_MARK))
}

fn short_mark_as_head(settings: Settings, file: &[u8]) -> Count {
    let short = bad_mark(settings, file).is_some_and(|(_, mark)| mark.len() < END_MARK.len());
    swapped((SECOND.frame_count)(settings, file), Refusal::BadMark, Refusal::ShortHead, short)
}

/// The count of the file with each number 0 made another.
fn number_zero_read(settings: Settings, file: &[u8]) -> Count {
    let mut read = file.to_vec();
    while let Some((_, mark)) = bad_mark(settings, &read).filter(|(_, mark)| mark.len() >= 6) {
        let place = read.len() - mark.len();
        read[place] = 1;
    }
    (SECOND.frame_count)(settings, &read)
}

fn size_ahead_of_mark(settings: Settings, file: &[u8]) -> Count {
    let past = number_zero_read(settings, file).refusal == Refusal::DataPastFile as u8;
    swapped((SECOND.frame_count)(settings, file), Refusal::BadMark, Refusal::DataPastFile, past)
}

fn first_byte_alone(settings: Settings, file: &[u8]) -> Count {
    let right = (SECOND.frame_count)(settings, file);
    let begins = |n| file[(SECOND.frame_place)(settings, file, n).place - 6] == 0;
    if (0..right.count).any(begins) {
        return Count::refused(Refusal::BadMark as u8);
    }
    right
}

fn mark_as_frame(settings: Settings, file: &[u8]) -> Count {
    let right = (SECOND.frame_count)(settings, file);
    Count { count: right.count + usize::from(is_marked(settings, file)), ..right }
}

fn last_four_bytes(settings: Settings, file: &[u8]) -> Mark {
    let right = (SECOND.end_mark)(settings, file);
    instead(right, || Some(Mark { marked: file.ends_with(END_MARK).into(), ..right }))
}

fn mark_of_refused(settings: Settings, file: &[u8]) -> Mark {
    let right = (SECOND.end_mark)(settings, file);
    let marked = if right.refusal == 0 { right.marked } else { file.ends_with(END_MARK).into() };
    Mark { marked, ..right }
}

fn wrong_first(file: &[u8]) -> DatSummary {
    let filled = (SECOND.dat_read)(&[file, &[0xEE; 16]].concat());
    let wrong = filled.refusal == Refusal::BadConstant as u8;
    swapped((SECOND.dat_read)(file), Refusal::FieldPastFile, Refusal::BadConstant, wrong)
}

fn registers_by_letter(settings: Settings, file: &[u8], n: usize) -> Place {
    let right = (SECOND.registers_place)(settings, file, n);
    instead(right, || {
        let (place, data) = data(settings, file, n)?;
        let letter = data.iter().position(|&byte| byte == b'R')?;
        Some(Place { place: place + letter + 1, ..right })
    })
}

/// Memory from an address to its block's end.
fn memory_in(block: &Block, address: u64) -> Place {
    let offset = address.wrapping_sub(block.address) as usize;
    Place { refusal: 0, place: block.place + 11 + offset, length: block.length - offset }
}

fn latest_memory(settings: Settings, file: &[u8], n: usize, address: u64) -> Place {
    let covers = |block: &Block| block.letter == b'M' && address.wrapping_sub(block.address) < block.length as u64;
    instead((SECOND.memory_place)(settings, file, n, address), || {
        let latest = blocks(settings, file, n).rfind(covers)?;
        Some(memory_in(&latest, address))
    })
}

fn unwrapped_memory(settings: Settings, file: &[u8], n: usize, address: u64) -> Place {
    let covers = |block: &Block| {
        let offset = address.checked_sub(block.address);
        block.letter == b'M' && offset.is_some_and(|offset| offset < block.length as u64)
    };
    instead((SECOND.memory_place)(settings, file, n, address), || {
        let found = blocks(settings, file, n).find(covers);
        Some(found.map_or(Place::refused(Refusal::NotFound as u8), |block| memory_in(&block, address)))
    })
}

fn unsigned_variable(settings: Settings, file: &[u8], n: usize, number: u32) -> Value {
    let right = (SECOND.variable)(settings, file, n, number);
    Value { value: right.value & i64::MAX, ..right }
}

fn left_field(settings: Settings, file: &[u8], n: usize, k: usize) -> Block {
    let right = (SECOND.block_record)(settings, file, n, k);
    Block { place: if right.refusal == 0 { right.place } else { 1 }, ..right }
}

fn records_first(settings: Settings, file: &[u8], records: &mut [Record]) -> Count {
    let mut table = vec![[0; 4]; (SECOND.frame_count)(settings, file).count];
    (SECOND.frame_table)(settings, file, &mut table);
    for (record, frame) in records.iter_mut().zip(table) {
        *record = frame;
    }
    (SECOND.frame_table)(settings, file, records)
}

fn record_too_many(settings: Settings, file: &[u8], records: &mut [Record]) -> Count {
    let answer = (SECOND.frame_table)(settings, file, records);
    if let Some(record) = records.get_mut(answer.count) {
        record[0] ^= 1 << 63;
    }
    answer
}

fn frames_first(settings: Settings, file: &[u8], selection: Selection, out: &mut [u8]) -> Length {
    let mut whole = vec![0; file.len()];
    let length = (SECOND.cut)(settings, file, selection, &mut whole).length.min(out.len());
    out[..length].copy_from_slice(&whole[..length]);
    (SECOND.cut)(settings, file, selection, out)
}

fn byte_too_many(settings: Settings, file: &[u8], selection: Selection, out: &mut [u8]) -> Length {
    let answer = (SECOND.cut)(settings, file, selection, out);
    if let Some(byte) = out.get_mut(answer.length) {
        *byte = !*byte;
    }
    answer
}

fn high_left_out(settings: Settings, file: &[u8], mut selection: Selection, out: &mut [u8]) -> Length {
    for range in selection.ranges.iter_mut().filter(|range| range.low < range.high) {
        range.high -= 1;
    }
    (SECOND.cut)(settings, file, selection, out)
}

fn all_ranges_judged(settings: Settings, file: &[u8], selection: Selection, out: &mut [u8]) -> Length {
    if selection.ranges.iter().any(|range| range.low > range.high) {
        return Length::refused(Refusal::BadArgument as u8);
    }
    (SECOND.cut)(settings, file, selection, out)
}

fn only_one_keeps(settings: Settings, file: &[u8], selection: Selection, out: &mut [u8]) -> Length {
    let keep = u8::from(selection.keep == 1);
    (SECOND.cut)(settings, file, Selection { keep, ..selection }, out)
}

fn openings_first(settings: Settings, first: &[u8], second: &[u8], out: &mut [u8]) -> Length {
    let (one, other) = ((SECOND.frame_count)(settings, first), (SECOND.frame_count)(settings, second));
    if one.refusal == 0 && other.refusal > Refusal::BadArgument as u8 {
        return Length::refused(Refusal::OpeningsDiffer as u8);
    }
    (SECOND.join)(settings, first, second, out)
}

fn border_off(settings: Settings, first: &[u8], second: &[u8], n: usize) -> PairPart {
    let border = (SECOND.frame_count)(settings, first).count;
    (SECOND.pair_place)(settings, first, second, if n == border { n + 1 } else { n })
}

fn first_only(settings: Settings, first: &[u8], second: &[u8], n: usize, number: u32) -> Value {
    let right = (SECOND.pair_variable)(settings, first, second, n, number);
    instead(right, || Some((SECOND.variable)(settings, first, n, number)))
}

fn is_marked(settings: Settings, file: &[u8]) -> bool {
    (SECOND.end_mark)(settings, file).marked == 1
}

/// A file without its end mark, if it has one.
fn unmarked(settings: Settings, file: &[u8]) -> &[u8] {
    &file[..file.len() - if is_marked(settings, file) { END_MARK.len() } else { 0 }]
}

fn cut_without_mark(settings: Settings, file: &[u8], selection: Selection, out: &mut [u8]) -> Length {
    (SECOND.cut)(settings, unmarked(settings, file), selection, out)
}

/// Only where there are frames, and none is selected.
fn empty_cut_without_mark(settings: Settings, file: &[u8], selection: Selection, out: &mut [u8]) -> Length {
    let mut whole = vec![0; file.len()];
    let Length { length, .. } = (SECOND.cut)(settings, file, selection, &mut whole);
    let none = (SECOND.frame_count)(settings, &whole[..length]) == Count { refusal: 0, count: 0 };
    if none && (SECOND.frame_count)(settings, file).count > 0 {
        return cut_without_mark(settings, file, selection, out);
    }
    (SECOND.cut)(settings, file, selection, out)
}

fn cut_before_mark(settings: Settings, file: &[u8], selection: Selection, out: &mut [u8]) -> Length {
    cut_without_mark(settings, file, selection, out);
    (SECOND.cut)(settings, file, selection, out)
}

fn first_mark_only(settings: Settings, first: &[u8], second: &[u8], out: &mut [u8]) -> Length {
    (SECOND.join)(settings, first, unmarked(settings, second), out)
}

fn second_mark_only(settings: Settings, first: &[u8], second: &[u8], out: &mut [u8]) -> Length {
    (SECOND.join)(settings, unmarked(settings, first), second, out)
}

/// Whether both traces are marked.
fn both_marked(settings: Settings, first: &[u8], second: &[u8]) -> bool {
    is_marked(settings, first) && is_marked(settings, second)
}

/// Two marks at the end where both traces have one, and there is room for them.
fn two_marks(settings: Settings, first: &[u8], second: &[u8], out: &mut [u8]) -> Length {
    let right = (SECOND.join)(settings, first, second, out);
    instead(right, || {
        let length = right.length + END_MARK.len();
        let room = out.get_mut(right.length..length).filter(|_| both_marked(settings, first, second))?;
        room.copy_from_slice(END_MARK);
        Some(Length { length, ..right })
    })
}

/// The mark behind the frames of the first trace.
fn mark_between(settings: Settings, first: &[u8], second: &[u8], out: &mut [u8]) -> Length {
    let right = (SECOND.join)(settings, first, second, out);
    if right.refusal == 0 && is_marked(settings, &out[..right.length]) {
        let border = unmarked(settings, first).len();
        out[border..right.length].rotate_right(END_MARK.len());
    }
    right
}

/// No room where the mark of each trace would not fit.
fn mark_twice(settings: Settings, first: &[u8], second: &[u8], out: &mut [u8]) -> Length {
    let room = out.len();
    let right = (SECOND.join)(settings, first, second, &mut out.to_vec());
    if both_marked(settings, first, second) && right.length + END_MARK.len() > room {
        return Length::refused(right.refusal.max(Refusal::NoRoom as u8));
    }
    (SECOND.join)(settings, first, second, out)
}

fn join_before_mark(settings: Settings, first: &[u8], second: &[u8], out: &mut [u8]) -> Length {
    (SECOND.join)(settings, unmarked(settings, first), unmarked(settings, second), out);
    (SECOND.join)(settings, first, second, out)
}

/// The join without the mark where only the mark takes it past the limit.
fn mark_past_limit(settings: Settings, first: &[u8], second: &[u8], out: &mut [u8]) -> Length {
    let right = (SECOND.join)(settings, first, second, out);
    if right.refusal != Refusal::TooLong as u8 {
        return right;
    }
    (SECOND.join)(settings, unmarked(settings, first), unmarked(settings, second), out)
}

fn pair_without_mark(settings: Settings, first: &[u8], second: &[u8], n: usize) -> PairPart {
    (SECOND.pair_place)(settings, unmarked(settings, first), unmarked(settings, second), n)
}

/// Too long where two traces are so with the mark of each.
fn pair_mark_twice(settings: Settings, first: &[u8], second: &[u8], n: usize) -> PairPart {
    let opening = read(settings, second).map_or(0, |trace| trace.opening().len());
    if both_marked(settings, first, second) && first.len() + second.len() - opening > MAX_LENGTH {
        return PairPart::refused(Refusal::TooLong as u8);
    }
    (SECOND.pair_place)(settings, first, second, n)
}

/// What a file's CPU ranges are judged by.
struct Bounds {
    page: u64,
    header_end: u64,
    file_end: u64,
}

/// A file read with these judgements of a range and of all ranges together.
fn read_with(file: &[u8], bad: fn(&CpuRange, &Bounds) -> bool, overlap: fn(&[CpuRange]) -> bool) -> DatSummary {
    let Ok(header) = dat::header(file) else { return (SECOND.dat_read)(file) };
    let ranges: Vec<_> = dat::cpu_ranges(&header, file).collect();
    let bounds =
        Bounds { page: header.page_size.into(), header_end: header.body.end() as u64, file_end: file.len() as u64 };
    if ranges.iter().any(|range| bad(range, &bounds)) {
        return DatSummary::refused(Refusal::BadRange as u8);
    }
    if overlap(&ranges) {
        return DatSummary::refused(Refusal::RangesOverlap as u8);
    }
    summary(&header)
}

fn end(range: &CpuRange) -> u128 {
    u128::from(range.offset) + u128::from(range.size)
}

fn misaligned(range: &CpuRange, bounds: &Bounds) -> bool {
    !range.offset.is_multiple_of(bounds.page)
}

fn bad(range: &CpuRange, bounds: &Bounds) -> bool {
    range.size > 0 && range.offset < bounds.header_end || bad_alone(range, bounds)
}

fn bad_alone(range: &CpuRange, bounds: &Bounds) -> bool {
    range.size > 0 && (misaligned(range, bounds) || end(range) > bounds.file_end.into())
}

fn bad_where_it_wraps(range: &CpuRange, bounds: &Bounds) -> bool {
    let end = range.offset.wrapping_add(range.size);
    let misplaced = misaligned(range, bounds) || range.offset < bounds.header_end;
    range.size > 0 && (misplaced || end > bounds.file_end)
}

/// Whether some two ranges that hold something are so.
fn some_two(ranges: &[CpuRange], are: fn(&CpuRange, &CpuRange) -> bool) -> bool {
    let held: Vec<_> = ranges.iter().filter(|range| range.size > 0).collect();
    (0..held.len()).any(|one| held[..one].iter().any(|other| are(held[one], other)))
}

fn overlap(one: &CpuRange, other: &CpuRange) -> bool {
    u128::from(one.offset) < end(other) && u128::from(other.offset) < end(one)
}

fn two_overlap(ranges: &[CpuRange]) -> bool {
    some_two(ranges, overlap)
}

fn two_touch(ranges: &[CpuRange]) -> bool {
    some_two(ranges, |one, other| u128::from(one.offset) <= end(other) && u128::from(other.offset) <= end(one))
}

fn neighbours_overlap(ranges: &[CpuRange]) -> bool {
    ranges.windows(2).any(two_overlap)
}

fn overlap_first(file: &[u8]) -> DatSummary {
    match read_with(file, |_, _| false, two_overlap) {
        overlapping if overlapping.refusal == Refusal::RangesOverlap as u8 => overlapping,
        _ => (SECOND.dat_read)(file),
    }
}

fn options_place(file: &[u8]) -> DatSummary {
    let right = (SECOND.dat_read)(file);
    let options = if right.options.size == 0 { Part { place: right.body.place, size: 0 } } else { right.options };
    DatSummary { options, ..right }
}
