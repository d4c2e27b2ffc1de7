//! Traces, their lines, frames and blocks.
use super::bytes::{frame, marked, memory, opening, registers, stands_at, trace, variable, ORDERS};
use crate::{raw, Base, Block, Content, LineKind, Order, Pair, Refusal, Settings, Trace, LONGEST};
use std::ops::Range;

pub const BOARD: &[u8] = include_bytes!("../../../../samples/board.tf");

fn refusal(settings: impl Into<Settings>, file: &[u8]) -> Option<Refusal> {
    Trace::open(settings, file).err()
}

#[test]
fn openings() {
    for order in ORDERS {
        assert_eq!(refusal(order, b""), Some(Refusal::BadHead));
        assert_eq!(refusal(order, b"\x7fTRACE1\n\n"), Some(Refusal::BadHead));
        assert_eq!(refusal(order, b"\x7fTRACE0\n"), Some(Refusal::NoEmptyLine));
        assert_eq!(refusal(order, b"\x7fTRACE0\n\n"), None);
        let decimal = Settings { order, base: Base::Ten };
        assert_eq!(refusal(decimal, &opening("R 65535\n")), None);
        assert_eq!(refusal(decimal, &opening("R 65536\n")), Some(Refusal::BadLine));
        assert_eq!(refusal(order, &opening("R8\n")), None);
        assert_eq!(refusal(order, &opening("status 1\nstatus 2\n")), Some(Refusal::BadLine));
    }
}

/// What follows the first empty line may have others in it.
#[test]
fn the_opening_ends_at_the_first_empty_line() {
    for order in ORDERS {
        let file = trace("tp x\nR 2\n", &[frame(order, 0x0A0A, &[registers(b"\n\n"), memory(order, 1, b"\n\nR 3\n")])]);
        let trace = Trace::open(order, &file).unwrap();
        assert_eq!(trace.opening(), opening("tp x\nR 2\n"));
        assert_eq!(trace.lines().map(|line| line.bytes).collect::<Vec<_>>(), [&b"tp x"[..], b"R 2"]);
        assert_eq!(trace.register_size(), Some(2));
    }
}

#[test]
fn frame_heads() {
    let file = trace("", &[b"\x01\0\0\0\0\0".to_vec()]);
    assert_eq!(Trace::open(Order::Little, &file).unwrap().frame(0).unwrap().tracepoint(), 1);
    assert_eq!(Trace::open(Order::Big, &file).unwrap().frame(0).unwrap().tracepoint(), 256);
    for order in ORDERS {
        assert_eq!(refusal(order, &file[..file.len() - 1]), Some(Refusal::ShortHead));
        let whole = trace("", &[frame(order, 1, &[variable(order, 1, -1)])]);
        assert_eq!(refusal(order, &whole), None);
        assert_eq!(refusal(order, &whole[..whole.len() - 1]), Some(Refusal::DataPastFile));
    }
}

#[test]
fn faulty_blocks() {
    for order in ORDERS {
        let with =
            |description: &str, data: &[u8]| refusal(order, &trace(description, &[frame(order, 1, &[data.to_vec()])]));
        assert_eq!(with("", b"R"), Some(Refusal::NoRegisterSize));
        assert_eq!(with("", b"\0"), Some(Refusal::BadLetter));
        assert_eq!(with("R 2\n", b"R\xAA\xBB"), None);
        assert_eq!(with("R 2\n", b"R\xAA"), Some(Refusal::BlockPastData));
        assert_eq!(with("R 0\n", b"R"), None);
    }
}

#[test]
fn the_end_mark() {
    for order in ORDERS {
        for frames in [vec![], vec![frame(order, 1, &[])], vec![frame(order, 256, &[variable(order, 1, 0)])]] {
            let file = trace("tp x\nR 2\n", &frames);
            for mark in [false, true] {
                let ended = marked(&file, mark);
                let trace = Trace::open(order, &ended).unwrap();
                assert_eq!((trace.is_marked(), trace.frame_count()), (mark, frames.len()));
                assert_eq!(trace.opening(), opening("tp x\nR 2\n"));
                assert_eq!(trace.lines().map(|line| line.bytes).collect::<Vec<_>>(), [&b"tp x"[..], b"R 2"]);
                assert_eq!(trace.line(2), Err(Refusal::NotFound));
                assert!(trace.frames().all(|frame| frame.place() + frame.data().len() == file.len()));
            }
        }
    }
}

#[test]
fn bad_end_marks() {
    for order in ORDERS {
        let refused = |end: &[u8]| refusal(order, &[&trace("", &[frame(order, 1, &[])]), end].concat());
        assert_eq!(refused(b"\0"), Some(Refusal::ShortHead));
        assert_eq!(refused(b"\0\0\0\0"), None);
        for end in [&b"\0\0"[..], b"\0\0\0", b"\0\0\0\0\0", b"\0\0\x01\0", b"\0\0\0\0\0\0", b"\0\0\0\0\x01\x01\0\0\0\0"]
        {
            assert_eq!(refused(end), Some(Refusal::BadMark), "{end:?}");
        }
    }
}

/// What is asked in a small trace of one frame has the mark neither in its bytes nor in its blocks.
#[test]
fn the_last_frame_of_a_marked_trace() {
    for order in ORDERS {
        let blocks = [registers(b"ab"), variable(order, 1, 0), memory(order, 16, &[0; 4])];
        let file = marked(&trace("R 2\n", &[frame(order, 1, &[]), frame(order, 2, &blocks)]), true);
        let trace = Trace::open(order, &file).unwrap();
        let last = trace.frames().next_back().unwrap();
        assert_eq!(last.data(), blocks.concat());
        assert_eq!(last.blocks().count(), 3);
        assert_eq!(last.blocks().last().unwrap().content, Content::Memory { address: 16, bytes: &[0; 4] });
        assert_eq!(last.registers(), Ok(&b"ab"[..]));
        assert_eq!(last.memory(18), Ok(&[0; 2][..]));
        assert_eq!(last.memory(20), Err(Refusal::NotFound));
        assert_eq!(last.variable(1), Ok(0));
        assert!(stands_at(&file, file.len() - 6, last.memory(18).unwrap()));
    }
}

#[test]
fn a_file_longer_than_the_limit() {
    let mut file = opening("");
    file.resize(LONGEST + 1, 0);
    assert_eq!(refusal(Order::Little, &file), Some(Refusal::TooLong));
    assert_eq!(refusal(Order::Little, &file[..LONGEST]), Some(Refusal::BadMark));
}

#[test]
fn lines_have_kind_and_bytes() {
    let file = opening("R 8\nstatus 1\ntp T1\ntsv 1\ntdesc <x>\nR8\ntp\n\r\n");
    let expected: [(LineKind, &[u8]); 8] = [
        (LineKind::R, b"R 8"),
        (LineKind::Status, b"status 1"),
        (LineKind::Tp, b"tp T1"),
        (LineKind::Tsv, b"tsv 1"),
        (LineKind::Tdesc, b"tdesc <x>"),
        (LineKind::Other, b"R8"),
        (LineKind::Other, b"tp"),
        (LineKind::Other, b"\r"),
    ];
    for order in ORDERS {
        let trace = Trace::open(order, &file).unwrap();
        let got: Vec<(LineKind, &[u8])> = trace.lines().map(|line| (line.kind, line.bytes)).collect();
        assert_eq!(got, expected);
        assert!(trace.lines().all(|line| stands_at(&file, line.place, line.bytes)));
        assert_eq!(trace.line(7).unwrap().bytes, b"\r");
        assert_eq!(trace.line(8), Err(Refusal::NotFound));
        assert_eq!(trace.opening(), &file[..]);
    }
}

#[test]
fn a_long_description_is_read_line_by_line() {
    let texts: Vec<String> = (0..3000).map(|i| format!("tsv {}", "x".repeat(i % 13))).collect();
    let file = trace(&(texts.join("\n") + "\n"), &[frame(Order::Big, 9, &[])]);
    let trace = Trace::open(Order::Big, &file).unwrap();
    assert_eq!(trace.lines().count(), texts.len());
    for (line, text) in trace.lines().zip(&texts) {
        assert_eq!(line.bytes, text.as_bytes());
        assert!(stands_at(&file, line.place, line.bytes));
        assert_eq!(line.kind, LineKind::Tsv);
    }
}

#[test]
fn frames_are_parts_of_the_file() {
    for order in ORDERS {
        let frames = [frame(order, 7, &[variable(order, 1, 5)]), frame(order, 300, &[]), frame(order, 7, &[])];
        let file = trace("tp x\n", &frames);
        let trace = Trace::open(order, &file).unwrap();
        assert_eq!(trace.order(), order);
        assert_eq!(trace.frame_count(), 3);
        let seen: Vec<_> = trace.frames().map(|f| (f.number(), f.tracepoint(), f.place(), f.data().len())).collect();
        assert_eq!(seen, [(0, 7, 20, 13), (1, 300, 39, 0), (2, 7, 45, 0)]);
        assert!(trace.frames().all(|f| stands_at(&file, f.place(), f.data())));
        assert_eq!(trace.frame(3).unwrap_err(), Refusal::NotFound);
        assert_eq!(trace.blocks(3).unwrap_err(), Refusal::NotFound);
        assert_eq!(trace.opening(), &file[..14]);
    }
}

#[test]
fn blocks_carry_what_their_kind_has() {
    for order in ORDERS {
        let blocks = [memory(order, 258, b"RR"), variable(order, 65536, -2), registers(b"MV"), memory(order, 1, b"")];
        let file = trace("R 2\n", &[frame(order, 1, &[]), frame(order, 1, &blocks), frame(order, 1, &blocks[2..])]);
        let trace = Trace::open(order, &file).unwrap();
        let got: Vec<Block> = trace.blocks(1).unwrap().collect();
        let expected = [
            Block { place: 25, content: Content::Memory { address: 258, bytes: b"RR" } },
            Block { place: 38, content: Content::Variable { number: 65536, value: -2 } },
            Block { place: 51, content: Content::Registers(b"MV") },
            Block { place: 54, content: Content::Memory { address: 1, bytes: b"" } },
        ];
        assert_eq!(got, expected);
        assert_eq!(trace.blocks(0).unwrap().next(), None);
        let Content::Registers(bytes) = got[2].content else { panic!("{got:?}") };
        assert!(stands_at(&file, 52, bytes));
        let first = trace.blocks(2).unwrap().next().unwrap();
        assert_eq!(first, Block { place: 71, content: Content::Registers(b"MV") });
    }
}

#[test]
fn registers_are_those_of_the_frames_own_block() {
    for order in ORDERS {
        let frames = [
            frame(order, 1, &[variable(order, 1, 1), registers(b"ab"), memory(order, 1, b"RR")]),
            frame(order, 1, &[]),
            frame(order, 1, &[registers(b"cd")]),
        ];
        let file = trace("tp x\nR 2\n", &frames);
        let trace = Trace::open(order, &file).unwrap();
        assert_eq!(trace.registers(0).unwrap(), b"ab");
        assert!(stands_at(&file, 38, trace.registers(0).unwrap()));
        assert_eq!(trace.registers(1), Err(Refusal::NotFound));
        assert_eq!(trace.registers(2).unwrap(), b"cd");
        assert!(stands_at(&file, file.len() - 2, trace.registers(2).unwrap()));
        assert_eq!(trace.registers(3), Err(Refusal::NotFound));
    }
}

#[test]
fn registers_of_size_0() {
    for order in ORDERS {
        let file = trace("R 0\n", &[frame(order, 1, &[registers(b""), variable(order, 1, 1)])]);
        let trace = Trace::open(order, &file).unwrap();
        assert!(trace.registers(0).unwrap().is_empty());
        assert!(trace.blocks(0).unwrap().map(|b| b.place).eq([19, 20]));
    }
}

#[test]
fn memory_runs_on_at_address_0() {
    for order in ORDERS {
        let file = trace("", &[frame(order, 1, &[memory(order, u64::MAX, b"\x11\x22"), memory(order, 0, b"late")])]);
        let trace = Trace::open(order, &file).unwrap();
        assert_eq!(trace.memory(0, u64::MAX).unwrap(), b"\x11\x22");
        assert_eq!(trace.memory(0, 0).unwrap(), b"\x22");
        assert_eq!(trace.memory(0, 1).unwrap(), b"ate");
        assert!(stands_at(&file, 27, trace.memory(0, 0).unwrap()));
        assert_eq!(trace.memory(0, 4), Err(Refusal::NotFound));
        assert_eq!(trace.memory(1, 0), Err(Refusal::NotFound));
    }
}

#[test]
fn variables_are_signed() {
    for order in ORDERS {
        let file = trace("", &[frame(order, 1, &[variable(order, 1, -1), variable(order, 2, i64::MIN)])]);
        let trace = Trace::open(order, &file).unwrap();
        assert_eq!(trace.variable(0, 1), Ok(-1));
        assert_eq!(trace.variable(0, 2), Ok(i64::MIN));
        assert_eq!(trace.variable(0, 3), Err(Refusal::NotFound));
        assert_eq!(trace.variable(1, 1), Err(Refusal::NotFound));
    }
}

/// A trace of one frame with variable 1 of these values, one behind the other, and other blocks around each.
fn collected(order: Order, values: &[i64]) -> Vec<u8> {
    let mut blocks = vec![registers(&variable(order, 1, 98)), variable(order, 2, 99)];
    for &value in values {
        let look_alike = memory(order, 1, &variable(order, 1, 97));
        blocks.extend([variable(order, 1, value), look_alike, variable(order, 2, value)]);
    }
    trace("R d\n", &[frame(order, 1, &blocks)])
}

#[test]
fn the_latest_block_of_a_variable_counts() {
    for order in ORDERS {
        for values in [&[5][..], &[5, 6], &[6, 5], &[5, -1], &[5, 7, 6], &[5, 6, 5], &[6, 6, 6, i64::MIN]] {
            let file = collected(order, values);
            let (trace, pair) = (Trace::open(order, &file).unwrap(), Pair::new(order, &file, &file));
            for number in [1, 2] {
                assert_eq!(trace.variable(0, number), Ok(values[values.len() - 1]));
                assert_eq!([0, 1].map(|n| pair.variable(n, number)), [trace.variable(0, number); 2]);
            }
        }
        let none = collected(order, &[]);
        assert_eq!(Trace::open(order, &none).unwrap().variable(0, 1), Err(Refusal::NotFound));
        assert_eq!(Pair::new(order, &none, &none).variable(1, 1), Err(Refusal::NotFound));
    }
}

/// The place of each block, asked in the file itself.
fn places_in_file(settings: Settings, file: &[u8], n: usize) -> Vec<usize> {
    (0..).map_while(|k| raw::block_record(settings, file, n, k).ok()).map(|block| block.place).collect()
}

/// Its register block stands first, among the first few, in the middle and last: some of its pieces have it, and the others not.
#[test]
fn a_long_frame_is_read_block_by_block() {
    for (order, at) in ORDERS.into_iter().flat_map(|order| [0, 7, 8, 200, 399].map(|at| (order, at))) {
        let block = |i: u32| match i % 2 {
            _ if i == at => registers(b"MVR"),
            0 => memory(order, i.into(), &vec![b'R'; i as usize % 70]),
            _ => variable(order, i, -i64::from(i)),
        };
        let blocks: Vec<Vec<u8>> = (0..400).map(block).collect();
        let file = trace("R 3\n", &[frame(order, 1, &blocks), frame(order, 2, &[registers(b"abc")])]);
        let trace = Trace::open(order, &file).unwrap();
        let got: Vec<Block> = trace.blocks(0).unwrap().collect();
        assert_eq!(got.len(), blocks.len());
        assert!(got.iter().map(|block| block.place).eq(places_in_file(order.into(), &file, 0)));
        assert_eq!(got[at as usize].content, Content::Registers(b"MVR"));
    }
}

/// The bytes of the register block by the blocks of the file itself: from behind its letter to the next block, or to the end of the
/// frame's data.
fn registers_in_file(settings: Settings, file: &[u8], n: usize, end: usize) -> Option<&[u8]> {
    let places = places_in_file(settings, file, n);
    let k = (0..places.len()).find(|&k| raw::block_record(settings, file, n, k).unwrap().letter == b'R')?;
    Some(&file[places[k] + 1..places.get(k + 1).copied().unwrap_or(end)])
}

/// A frame's own questions go by the table, or ask the library in a small trace; in the file itself it gives the same answers.
pub fn answers_as_the_file(settings: Settings, file: &[u8], addresses: &[u64], variables: Range<u32>) {
    let trace = Trace::open(settings, file).unwrap();
    let part = |found: raw::Place| &file[found.place..found.place + found.length];
    for n in 0..=trace.frame_count() {
        let places: Vec<usize> = trace.blocks(n).into_iter().flatten().map(|block| block.place).collect();
        assert_eq!(places, places_in_file(settings, file, n));
        let end = trace.frame(n).map_or(0, |frame| frame.place() + frame.data().len());
        assert_eq!(trace.registers(n), registers_in_file(settings, file, n, end).ok_or(Refusal::NotFound));
        for &address in addresses {
            assert_eq!(trace.memory(n, address), raw::memory_place(settings, file, n, address).map(part));
        }
        for number in variables.clone() {
            assert_eq!(trace.variable(n, number), raw::variable(settings, file, n, number).map(|v| v.value));
        }
    }
}

#[test]
fn answers_are_those_of_the_whole_file() {
    assert_eq!(Trace::open(Order::Little, BOARD).unwrap().frame_count(), 6);
    let addresses = [0, 1, 2, 0x7FEFB0, 0x7FEFD4, 0x7FF000, 0x7FF00F, 0x7FF010, u64::MAX];
    answers_as_the_file(Order::Little.into(), BOARD, &addresses, 0..4);
}
