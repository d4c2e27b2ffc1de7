//! Cuts, joins and pairs.
use super::bytes::{frame, marked, opening, stands_at, trace, variable, MARK, ORDERS};
use crate::{cut, cut_to_vec, join, join_to_vec, Order, Pair, Refusal, Selection, Side, Trace, LONGEST};

/// Frames of these tracepoint numbers, each with the variable 1 that says which frame it is.
fn numbered(order: Order, numbers: &[u16]) -> Vec<u8> {
    let frames: Vec<Vec<u8>> =
        numbers.iter().enumerate().map(|(i, &n)| frame(order, n, &[variable(order, 1, i as i64)])).collect();
    trace("tp x\n", &frames)
}

/// The frames of a file that stand in a cut, by the value of their variable.
fn frames_left(order: Order, file: &[u8], selection: Selection) -> Vec<i64> {
    let left = cut_to_vec(order, file, &selection).unwrap();
    let trace = Trace::open(order, &left).unwrap();
    trace.frames().map(|frame| frame.variable(1).unwrap()).collect()
}

#[test]
fn a_cut_holds_the_selected_frames() {
    for order in ORDERS {
        let file = numbered(order, &[1, 2, 1, 65535]);
        assert_eq!(frames_left(order, &file, Selection::keep([1..=1])), [0, 2]);
        assert_eq!(frames_left(order, &file, Selection::drop([1..=1])), [1, 3]);
        assert_eq!(frames_left(order, &file, Selection::keep([1..=1]).opposite()), [1, 3]);
        assert_eq!(frames_left(order, &file, Selection::keep([2..=2, 3..=65535])), [1, 3]);
        assert_eq!(frames_left(order, &file, Selection::keep([])), []);
        assert_eq!(cut_to_vec(order, &file, &Selection::drop([])).unwrap(), file);
    }
}

#[test]
fn a_selection_is_checked() {
    for order in ORDERS {
        let file = numbered(order, &[1]);
        let refused = |selection| cut_to_vec(order, &file, &selection).err();
        assert_eq!(refused(Selection::keep(vec![1..=1; 8])), None);
        assert_eq!(refused(Selection::keep(vec![1..=1; 9])), Some(Refusal::BadArgument));
        #[allow(clippy::reversed_empty_ranges)]
        let reversed = 2..=1;
        assert_eq!(refused(Selection::drop([1..=1, reversed])), Some(Refusal::BadArgument));
    }
}

#[test]
fn an_output_holds_the_cut_and_is_else_unchanged() {
    for order in ORDERS {
        let file = numbered(order, &[1, 2, 1]);
        let selection = Selection::keep([2..=2]);
        let expected = cut_to_vec(order, &file, &selection).unwrap();
        let mut out = [0xEE; 64];
        let room = expected.len();
        assert_eq!(cut(order, &file, &selection, &mut out[..room - 1]), Err(Refusal::NoRoom));
        assert_eq!(out, [0xEE; 64]);
        assert_eq!(cut(order, &file, &selection, &mut out[..room]), Ok(room));
        assert_eq!(out[..room], expected);
        assert!(out[room..].iter().all(|&byte| byte == 0xEE));
        assert_eq!(cut(order, &file[..file.len() - 1], &selection, &mut out), Err(Refusal::DataPastFile));
    }
}

#[test]
fn a_join_holds_both_runs_of_frames() {
    for order in ORDERS {
        let (first, second) = (numbered(order, &[1, 2]), numbered(order, &[3]));
        let start = opening("tp x\n").len();
        let expected = [&first[..], &second[start..]].concat();
        assert_eq!(join_to_vec(order, &first, &second).unwrap(), expected);
        let mut out = [0xEE; 80];
        let room = expected.len();
        assert_eq!(join(order, &first, &second, &mut out[..room - 1]), Err(Refusal::NoRoom));
        assert_eq!(out, [0xEE; 80]);
        assert_eq!(join(order, &first, &second, &mut out), Ok(room));
        assert_eq!(out[..room], expected);
        assert!(out[room..].iter().all(|&byte| byte == 0xEE));
    }
}

#[test]
fn a_cut_keeps_the_end_mark() {
    for order in ORDERS {
        let file = marked(&numbered(order, &[1, 2]), true);
        let kept = |selection| cut_to_vec(order, &file, &selection).unwrap();
        let (one, other) = (kept(Selection::keep([2..=2])), kept(Selection::drop([2..=2])));
        assert!(Trace::open(order, &one).unwrap().is_marked());
        assert_eq!(kept(Selection::keep([])), marked(&opening("tp x\n"), true));
        assert_eq!(kept(Selection::keep([0..=0])), marked(&opening("tp x\n"), true));
        assert_eq!(kept(Selection::keep([0..=65535])), file);
        assert_eq!(one.len() + other.len(), file.len() + opening("tp x\n").len() + MARK.len());
    }
}

#[test]
fn a_join_has_one_end_mark() {
    for order in ORDERS {
        let (first, second) = (numbered(order, &[1, 2]), numbered(order, &[3]));
        let both = join_to_vec(order, &first, &second).unwrap();
        for marks in [[false, false], [false, true], [true, false], [true, true]] {
            let (first, second) = (marked(&first, marks[0]), marked(&second, marks[1]));
            let expected = marked(&both, marks[0] || marks[1]);
            let mut out = vec![0xEE; expected.len()];
            assert_eq!(join(order, &first, &second, &mut out[1..]), Err(Refusal::NoRoom));
            assert_eq!(join(order, &first, &second, &mut out), Ok(expected.len()));
            assert_eq!(out, expected);
            let pair = Pair::new(order, &first, &second);
            assert_eq!((pair.frame(2).unwrap().side, pair.frame(3)), (Side::Second, Err(Refusal::NotFound)));
        }
    }
}

#[test]
fn joins_are_refused_in_order() {
    for order in ORDERS {
        let sound = numbered(order, &[1]);
        let (short, long) = (&sound[..sound.len() - 1], trace("tp y\n", &[]));
        assert_eq!(join_to_vec(order, short, b""), Err(Refusal::DataPastFile));
        assert_eq!(join_to_vec(order, &sound, short), Err(Refusal::DataPastFile));
        assert_eq!(join_to_vec(order, &sound, &long), Err(Refusal::OpeningsDiffer));
        assert_eq!(join_to_vec(order, &sound, &opening("tp x\n")).unwrap(), sound);
    }
}

#[test]
fn a_join_longer_than_the_limit() {
    let order = Order::Little;
    let (bare, empty) = (opening(""), frame(order, 1, &[]));
    let with_frames = |n: usize| [&bare[..], &empty.repeat(n)].concat();
    let most = (LONGEST - bare.len()) / empty.len();
    let first = with_frames(most - 5);
    assert_eq!(join_to_vec(order, &first, &with_frames(5)).unwrap().len(), bare.len() + most * empty.len());
    assert_eq!(join_to_vec(order, &first, &with_frames(6)), Err(Refusal::TooLong));
    // One byte is left, so that the mark is too much; with a frame less there is room for one mark, and not for two.
    let (first, second) = (marked(&first, true), with_frames(5));
    assert_eq!(join_to_vec(order, &first, &second), Err(Refusal::TooLong));
    assert_eq!(Pair::new(order, &first, &second).frame(0), Err(Refusal::TooLong));
    assert_eq!(join_to_vec(order, &first, &marked(&with_frames(4), true)).unwrap().len(), LONGEST - 3);
}

#[test]
fn a_pair_reads_as_its_join() {
    for order in ORDERS {
        let (first, second) = (numbered(order, &[1, 2]), numbered(order, &[3, 4, 5]));
        let joined = join_to_vec(order, &first, &second).unwrap();
        let trace = Trace::open(order, &joined).unwrap();
        let pair = Pair::new(order, &first, &second);
        for frame in trace.frames() {
            let found = pair.frame(frame.number()).unwrap();
            let (side, file) = if frame.number() < 2 { (Side::First, &first) } else { (Side::Second, &second) };
            assert_eq!((found.side, found.data), (side, frame.data()));
            assert!(stands_at(file, found.place, found.data));
            assert_eq!(pair.variable(frame.number(), 1), frame.variable(1));
        }
        assert_eq!(pair.frame(5), Err(Refusal::NotFound));
        assert_eq!(pair.variable(5, 1), Err(Refusal::NotFound));
        assert_eq!(pair.variable(0, 2), Err(Refusal::NotFound));
        let differing = Pair { second: b"\x7fTRACE0\n\n", ..pair };
        assert_eq!(differing.frame(0), Err(Refusal::OpeningsDiffer));
        assert_eq!(differing.variable(0, 1), Err(Refusal::OpeningsDiffer));
    }
}
