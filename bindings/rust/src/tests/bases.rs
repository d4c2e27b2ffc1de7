//! What an R line says in base 10 and in base 16.
use super::bytes::{frame, marked, memory, opening, registers, trace, variable, ORDERS};
use super::trace::answers_as_the_file;
use crate::{
    cut, cut_to_vec, find_frame, join, join_to_vec, Base, Block, Content, LineKind, Order, Pair, Refusal, Selection,
    Settings, Trace,
};

fn ten(order: Order) -> Settings {
    Settings { order, base: Base::Ten }
}

fn sixteen(order: Order) -> Settings {
    Settings { order, base: Base::Sixteen }
}

/// A trace of one frame, which has one register block of so many bytes.
fn one_block(order: Order, line: &str, size: usize) -> Vec<u8> {
    trace(&format!("{line}\n"), &[frame(order, 1, &[registers(&vec![0xA5; size])])])
}

/// Whether the line says this size with these settings: a block of just so many bytes is read; none where it is refused.
fn says(settings: Settings, line: &str, size: Option<usize>) {
    let file = one_block(settings.order, line, size.unwrap_or(0));
    let found = Trace::open(settings, &file).map(|trace| (trace.register_size(), trace.registers(0).unwrap().len()));
    let said = size.map(|size| (Some(size), size));
    assert_eq!(found, said.ok_or(Refusal::BadLine), "{line:?} with {settings:?}");
}

#[test]
fn a_byte_order_alone_means_base_16() {
    for order in ORDERS {
        assert_eq!(Settings::from(order), sixteen(order));
        let file = one_block(order, "R 308", 776);
        let trace = Trace::open(order, &file).unwrap();
        assert_eq!((trace.settings(), trace.order()), (sixteen(order), order));
        assert_eq!(trace.registers(0).unwrap().len(), 776);
        assert_eq!(Trace::open(ten(order), &opening("R 308\n")).unwrap().settings(), ten(order));
    }
}

/// Lines and the size that each says in base 10 and in base 16.
const LINES: [(&str, Option<usize>, Option<usize>); 28] = [
    ("R 308", Some(308), Some(776)),
    ("R 974", Some(974), Some(2420)),
    ("R 0", Some(0), Some(0)),
    ("R 0308", Some(308), Some(776)),
    ("R 00308", Some(308), None),
    ("R 000308", None, None),
    ("R a", None, Some(10)),
    ("R Ab", None, Some(171)),
    ("R ABC", None, Some(2748)),
    ("R abcd", None, Some(43981)),
    ("R abcde", None, None),
    ("R ffff", None, Some(65535)),
    ("R FFFF", None, Some(65535)),
    ("R 10000", Some(10000), None),
    ("R 65535", Some(65535), None),
    ("R 65536", None, None),
    ("R 99999", None, None),
    ("R ", None, None),
    ("R 0x308", None, None),
    ("R 0x8", None, None),
    ("R 8h", None, None),
    ("R +8", None, None),
    ("R -8", None, None),
    ("R  8", None, None),
    ("R 8 ", None, None),
    ("R \t8", None, None),
    ("R 8\r", None, None),
    ("R \r", None, None),
];

#[test]
fn lines_say_their_size_in_the_base() {
    for order in ORDERS {
        for (line, in_ten, in_sixteen) in LINES {
            says(ten(order), line, in_ten);
            says(sixteen(order), line, in_sixteen);
        }
    }
}

#[test]
fn every_character_as_a_digit() {
    for order in ORDERS {
        for (settings, radix) in [(ten(order), 10), (sixteen(order), 16)] {
            for character in (0..128).map(char::from).filter(|&c| c != '\n') {
                let value = character.to_digit(radix).map(|digit| digit as usize);
                says(settings, &format!("R {character}"), value);
                says(settings, &format!("R 1{character}"), value.map(|value| radix as usize + value));
                says(settings, &format!("R {character}1"), value.map(|value| radix as usize * value + 1));
            }
        }
    }
}

/// The description's lines are asked for in small traces too, and one of them has the R line. Either line is refused in the other
/// base.
#[test]
fn lines_are_read_in_the_base() {
    for order in ORDERS {
        for (settings, line) in [(ten(order), "R 65535"), (sixteen(order), "R 3fA")] {
            let file = marked(&trace(&format!("tp x\n{line}\ntsv y\n"), &[]), true);
            let trace = Trace::open(settings, &file).unwrap();
            let kinds: Vec<LineKind> = trace.lines().map(|line| line.kind).collect();
            assert_eq!(kinds, [LineKind::Tp, LineKind::R, LineKind::Tsv]);
            assert_eq!(trace.line(1).map(|line| line.bytes), Ok(line.as_bytes()));
            assert!(trace.is_marked());
        }
    }
}

const MEMORY: [u8; 1422] = [b'M'; 1422];

/// In base 16 the frame is one register block of 2,420 bytes; in base 10 one of 974, a variable and memory.
pub fn read_by_both(order: Order) -> Vec<u8> {
    let blocks = [registers(&[b'R'; 974]), variable(order, 7, -8), memory(order, 77, &MEMORY)];
    assert_eq!(blocks.concat().len(), 1 + 2420);
    trace("R 974\n", &[frame(order, 3, &[]), frame(order, 1, &blocks)])
}

#[test]
fn a_frame_that_both_bases_read() {
    for order in ORDERS {
        let file = read_by_both(order);
        let data = Trace::open(order, &file).unwrap().frame(1).unwrap().place();
        let blocks = |settings| Trace::open(settings, &file).unwrap().blocks(1).unwrap().collect::<Vec<Block>>();
        let in_ten = [
            Block { place: data, content: Content::Registers(&[b'R'; 974]) },
            Block { place: data + 975, content: Content::Variable { number: 7, value: -8 } },
            Block { place: data + 988, content: Content::Memory { address: 77, bytes: &MEMORY } },
        ];
        assert_eq!(blocks(ten(order)), in_ten);
        assert_eq!(blocks(order.into()), [Block { place: data, content: Content::Registers(&file[data + 1..]) }]);
        answers_as_the_file(ten(order), &file, &[76, 77, 78], 6..8);
        answers_as_the_file(sixteen(order), &file, &[76, 77, 78], 6..8);
    }
}

#[test]
fn edits_and_pairs_read_in_the_base() {
    for order in ORDERS {
        let file = read_by_both(order);
        for settings in [ten(order), sixteen(order)] {
            let last = cut_to_vec(settings, &file, &Selection::keep([1..=1])).unwrap();
            let first = cut_to_vec(settings, &file, &Selection::drop([1..=1])).unwrap();
            assert_eq!(join_to_vec(settings, &first, &last).unwrap(), file);
            let pair = Pair::new(settings, &first, &last);
            assert_eq!(pair.settings, settings);
            assert_eq!(pair.variable(1, 7), Trace::open(settings, &file).unwrap().variable(1, 7));
        }
        assert_eq!(Pair::new(ten(order), &file, &file).variable(1, 7), Ok(-8));
        assert_eq!(Pair::new(order, &file, &file).variable(1, 7), Err(Refusal::NotFound));
    }
}

/// Every function that takes settings refuses with this; [`find_frame`] does so for the first frame that it does not find.
pub fn all_refuse(settings: Settings, file: &[u8], refusal: Refusal) {
    let (every, bare, out) = (Selection::drop([]), opening(""), &mut [0xEE; 4096]);
    assert_eq!(Trace::open(settings, file).err(), Some(refusal));
    assert_eq!((0..).find_map(|n| find_frame(settings, file, n).err()), Some(refusal));
    assert_eq!(cut(settings, file, &every, out), Err(refusal));
    assert_eq!(cut_to_vec(settings, file, &every), Err(refusal));
    assert_eq!(join(settings, file, file, out), Err(refusal));
    assert_eq!(join_to_vec(settings, &bare, file), Err(refusal));
    assert_eq!(Pair::new(settings, file, file).frame(0), Err(refusal));
    assert_eq!(Pair::new(settings, &bare, file).variable(0, 1), Err(refusal));
    assert_eq!(*out, [0xEE; 4096]);
}

#[test]
fn frames_that_one_base_reads() {
    for order in ORDERS {
        let (shorter, longer) = (one_block(order, "R 974", 974), one_block(order, "R 974", 2420));
        says(ten(order), "R 974", Some(974));
        all_refuse(sixteen(order), &shorter, Refusal::BlockPastData);
        says(sixteen(order), "R 974", Some(2420));
        all_refuse(ten(order), &longer, Refusal::BadLetter);
    }
}
