//! Registers are where the frame table has them.
use super::bases::read_by_both;
use super::bytes::{frame, marked, memory, registers, stands_at, trace, variable, ORDERS};
use crate::{Base, Order, Refusal, Settings, Trace};

/// The place and the bytes of a frame's register block; none where it has no such block.
type Registers<'b> = Option<(usize, &'b [u8])>;

/// Holds a trace, with the end mark and without it, to the registers of each of its frames.
fn has(settings: impl Into<Settings>, file: &[u8], expected: &[Registers]) {
    let settings = settings.into();
    for file in [file, &marked(file, true)] {
        let trace = Trace::open(settings, file).unwrap();
        assert_eq!(trace.frame_count(), expected.len());
        for (frame, expected) in trace.frames().zip(expected) {
            assert_eq!(frame.registers_place(), expected.map(|(place, _)| place));
            assert_eq!(frame.registers(), expected.map(|(_, bytes)| bytes).ok_or(Refusal::NotFound));
            assert_eq!(trace.registers(frame.number()), frame.registers());
            assert!(expected.is_none_or(|(place, _)| stands_at(file, place, frame.registers().unwrap())));
        }
        assert_eq!(trace.registers(expected.len()), Err(Refusal::NotFound));
    }
}

/// A frame of these blocks.
fn of(order: Order, blocks: &[&[u8]]) -> Vec<u8> {
    frame(order, 1, &[blocks.concat()])
}

/// Memory of 14 bytes, which are all `R` behind the letter but for the length.
fn letters(order: Order) -> Vec<u8> {
    memory(order, u64::from_be_bytes([b'R'; 8]), b"RRR")
}

/// The opening has 13 bytes and a frame's head 6.
#[test]
fn at_every_place_among_the_blocks() {
    for order in ORDERS {
        let (letters, variable, own) = (&letters(order)[..], &variable(order, 1, 1)[..], &registers(b"ab")[..]);
        for (blocks, place) in [
            (&[own][..], 20),
            (&[own, letters], 20),
            (&[letters, own], 34),
            (&[letters, own, letters], 34),
            (&[letters, letters, own, variable], 48),
        ] {
            has(order, &trace("R 2\n", &[of(order, blocks)]), &[Some((place, b"ab"))]);
        }
        has(order, &trace("R 2\n", &[of(order, &[letters, variable, letters])]), &[None]);
    }
}

/// Bytes that are all `R` are those of the block itself too.
#[test]
fn some_frames_have_none() {
    for order in ORDERS {
        let (letters, own) = (&letters(order)[..], &registers(b"RR")[..]);
        let frames = [&[][..], &[own], &[letters], &[], &[letters, own]].map(|blocks| of(order, blocks));
        let expected: [Registers; 5] = [None, Some((26, b"RR")), None, None, Some((75, b"RR"))];
        has(order, &trace("R 2\n", &frames), &expected);
        has(order, &trace("R 2\n", &[]), &[]);
    }
}

/// A block of size 0 is there, and its place may be the file's length.
#[test]
fn of_size_0() {
    for order in ORDERS {
        let (letters, own) = (&letters(order)[..], &registers(b"")[..]);
        let last = trace("R 0\n", &[of(order, &[letters, own])]);
        assert_eq!(last.len(), 34);
        has(order, &last, &[Some((34, b""))]);
        let frames = [of(order, &[own, letters]), of(order, &[letters])];
        has(order, &trace("R 0\n", &frames), &[Some((20, b"")), None]);
    }
}

#[test]
fn without_an_r_line() {
    for order in ORDERS {
        let file = trace("tp x\nR8\n", &[of(order, &[&letters(order)]), of(order, &[])]);
        has(order, &file, &[None, None]);
        assert_eq!(Trace::open(order, &file).unwrap().register_size(), None);
    }
}

/// The R line says 974 bytes in base 10 and 2,420 in base 16; both stand behind one letter.
#[test]
fn of_two_sizes_by_the_base() {
    for order in ORDERS {
        let file = read_by_both(order);
        let place = file.len() - 2420;
        for (base, size) in [(Base::Ten, 974), (Base::Sixteen, 2420)] {
            has(Settings { order, base }, &file, &[None, Some((place, &file[place..place + size]))]);
        }
    }
}
