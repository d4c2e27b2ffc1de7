//! A frame has at most one register block.
use super::bases::all_refuse;
use super::bytes::{frame, marked, memory, registers, trace, variable, ORDERS};
use super::trace::answers_as_the_file;
use crate::{cut_to_vec, join_to_vec, Base, Content, Order, Refusal, Selection, Settings, Trace};
use Refusal::{BadLetter, BlockPastData, NoRegisterSize, SecondRegisters};

/// A description, the size of a register block, and the letters of each frame's blocks. A small letter is a block without its last
/// byte, and `?` a byte that begins no block.
type Case = (&'static str, usize, &'static [&'static str]);

const REFUSED: [(Case, Refusal); 25] = [
    (("R 2\n", 2, &["RR"]), SecondRegisters),
    (("R 2\n", 2, &["RMR"]), SecondRegisters),
    (("R 2\n", 2, &["RVR"]), SecondRegisters),
    (("R 2\n", 2, &["VMRMVVRMV"]), SecondRegisters),
    (("R 2\n", 2, &["RVRR"]), SecondRegisters),
    (("R 2\n", 2, &["Rr"]), SecondRegisters),
    (("R 2\n", 2, &["RMr"]), SecondRegisters),
    (("R 2\n", 2, &["RRv"]), SecondRegisters),
    (("R 2\n", 2, &["Rv"]), BlockPastData),
    (("R 2\n", 2, &["Vr"]), BlockPastData),
    (("R 2\n", 2, &["?RR"]), BadLetter),
    (("R 2\n", 2, &["R?R"]), BadLetter),
    (("R 2\n", 2, &["R?r"]), BadLetter),
    (("R 2\n", 2, &["RR?"]), SecondRegisters),
    (("", 0, &["RR"]), NoRegisterSize),
    (("", 0, &["RVR"]), NoRegisterSize),
    (("", 0, &["?RR"]), BadLetter),
    (("R 0\n", 0, &["RR"]), SecondRegisters),
    (("R 0\n", 0, &["RVR"]), SecondRegisters),
    (("R 2\n", 2, &["R", "RR"]), SecondRegisters),
    (("R 2\n", 2, &["V", "", "RMR"]), SecondRegisters),
    (("R 2\n", 2, &["?", "RR"]), BadLetter),
    (("R 2\n", 2, &["v", "RR"]), BlockPastData),
    (("R 2\n", 2, &["RR", "?"]), SecondRegisters),
    (("R 2\n", 2, &["RR", "v"]), SecondRegisters),
];

const ACCEPTED: [Case; 5] = [
    ("R 2\n", 2, &["R", "R"]),
    ("R 2\n", 2, &["VR", "RM", "MRV"]),
    ("R 2\n", 2, &["R", "", "R"]),
    ("R 0\n", 0, &["R", "VR", "RM"]),
    ("", 0, &["M", "V"]),
];

/// Every byte of a block but its letter and a memory block's length.
const BYTE: u8 = b'R';

fn block(order: Order, size: usize, letter: char) -> Vec<u8> {
    let mut block = match letter.to_ascii_uppercase() {
        'R' => registers(&vec![BYTE; size]),
        'M' => memory(order, u64::from_be_bytes([BYTE; 8]), &[BYTE; 3]),
        'V' => variable(order, u32::from_be_bytes([BYTE; 4]), i64::from_be_bytes([BYTE; 8])),
        none => vec![none as u8],
    };
    block.truncate(block.len() - usize::from(letter.is_ascii_lowercase()));
    block
}

/// The file of a case; its frames are numbered from 1 on.
fn file_of(order: Order, (description, size, frames): Case) -> Vec<u8> {
    let blocks = |letters: &str| letters.chars().map(|letter| block(order, size, letter)).collect::<Vec<_>>();
    let frames: Vec<Vec<u8>> = (1..).zip(frames).map(|(n, letters)| frame(order, n, &blocks(letters))).collect();
    trace(description, &frames)
}

/// Does this with the settings and the file of a case: in both orders and bases, with the end mark and without it.
fn each_way(case: Case, check: impl Fn(Settings, &[u8])) {
    for order in ORDERS {
        let file = file_of(order, case);
        for base in [Base::Ten, Base::Sixteen] {
            check(Settings { order, base }, &file);
            check(Settings { order, base }, &marked(&file, true));
        }
    }
}

#[test]
fn a_second_block_is_refused_at_its_letter() {
    for (case, refusal) in REFUSED {
        each_way(case, |settings, file| all_refuse(settings, file, refusal));
    }
}

/// Each frame of a file has its registers, as many bytes as given, exactly where its letters have an `R`.
fn has_own_registers(settings: Settings, file: &[u8], size: usize, frames: &[&str]) {
    let trace = Trace::open(settings, file).unwrap();
    assert_eq!(trace.frame_count(), frames.len());
    for (frame, letters) in trace.frames().zip(frames) {
        let of_registers = frame.blocks().filter(|block| matches!(block.content, Content::Registers(_)));
        assert_eq!(frame.blocks().count(), letters.len());
        assert_eq!(of_registers.count(), letters.matches('R').count());
        let bytes = letters.find('R').map(|_| vec![BYTE; size]);
        assert_eq!(frame.registers().map(<[u8]>::to_vec), bytes.ok_or(Refusal::NotFound));
    }
}

#[test]
fn one_block_in_each_frame() {
    for case in ACCEPTED {
        each_way(case, |settings, file| {
            has_own_registers(settings, file, case.1, case.2);
            answers_as_the_file(settings, file, &[0, u64::from_be_bytes([BYTE; 8])], 0..2);
        });
    }
}

/// `R 10` is a block of 17 bytes in base 16, and one of 11 in base 10. Of a frame whose bytes are all `R` the next is a second letter.
#[test]
fn frames_of_bytes_that_are_all_letters() {
    for order in ORDERS {
        for (base, whole) in [(Base::Ten, 11), (Base::Sixteen, 17)] {
            for count in 1..40 {
                let (settings, blocks) = (Settings { order, base }, [vec![BYTE; count]]);
                let file = trace("R 10\n", &[frame(order, 1, &blocks)]);
                match count {
                    _ if count < whole => all_refuse(settings, &file, BlockPastData),
                    _ if count > whole => all_refuse(settings, &file, SecondRegisters),
                    _ => has_own_registers(settings, &file, whole - 1, &["R"]),
                }
            }
        }
    }
}

#[test]
fn cuts_and_joins_bring_none_about() {
    let case: Case = ("R 2\n", 2, &["VR", "M", "RV"]);
    each_way(case, |settings, file| {
        let outer = cut_to_vec(settings, file, &Selection::drop([2..=2])).unwrap();
        has_own_registers(settings, &outer, 2, &["VR", "RV"]);
        let joined = join_to_vec(settings, &outer, file).unwrap();
        has_own_registers(settings, &joined, 2, &["VR", "RV", "VR", "M", "RV"]);
    });
}
