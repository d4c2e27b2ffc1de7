//! The cases of request C-18: the R line in base 16, which is the default, and in base 10.

use super::{bad_line, edited, every_call_refuses, refusal, says, trace, with_registers, H, LITTLE, LITTLE_TEN};
use tufakpeni_tests::c::{Block, Place, Selection, Settings};
use tufakpeni_tests::reader::Reader;

pub fn all(reader: &Reader) {
    defaults(reader);
    sizes(reader);
    no_sizes(reader);
    digits(reader);
    unlike_sizes(reader);
    read_in_both_bases(reader);
    wrong_bases(reader);
    joins(reader);
}

/// The default has base 16, whatever is said of the order. A struct of zeros has no base.
fn defaults(reader: &Reader) {
    for order in 0..=u8::MAX {
        assert_eq!((reader.default_settings)(order), Settings { order, base: 16 });
    }
    assert_eq!(refusal(reader, Settings::default(), b"\n"), 2);
}

fn sizes(reader: &Reader) {
    for (line, size) in [
        ("R 308", 776),
        ("R 0308", 776),
        ("R a", 10),
        ("R 0A", 10),
        ("R 10", 16),
        ("R 1f", 31),
        ("R 1F", 31),
        ("R 2e8", 744),
        ("R 34c", 844),
        ("R 974", 2_420),
        ("R 9C4", 2_500),
        ("R 9999", 39_321),
        ("R aBcD", 43_981),
        ("R ffff", 65_535),
        ("R FFFF", 65_535),
        ("R 0000", 0),
    ] {
        says(reader, LITTLE, line, size);
    }
    for (line, size) in [
        ("R 308", 308),
        ("R 0308", 308),
        ("R 00308", 308),
        ("R 10", 10),
        ("R 974", 974),
        ("R 9999", 9_999),
        ("R 10000", 10_000),
        ("R 00000", 0),
    ] {
        says(reader, LITTLE_TEN, line, size);
    }
}

fn no_sizes(reader: &Reader) {
    for line in ["R 00308", "R 65535", "R 10000", "R 00000", "R 0ffff", "R fffff", "R FFFFF"] {
        bad_line(reader, LITTLE, line);
    }
    for line in ["R ffff", "R FFFF", "R 9c4", "R 9C4", "R 1e3", "R 000308"] {
        bad_line(reader, LITTLE_TEN, line);
    }
    for settings in [LITTLE, LITTLE_TEN] {
        for line in ["R 0x308", "R 0X308", "R x308", "R 308h", "R -308", "R +308", "R  308", "R 308 ", "R \t308"] {
            bad_line(reader, settings, line);
        }
        for line in ["R 308\r", "R \r", "R 308\0", "R 3.8", "R 3_8", "R 3,8", "R \u{663}", "R 30\u{ff18}"] {
            bad_line(reader, settings, line);
        }
    }
}

/// Every digit alone, before another and behind one; and what stands beside the digits in ASCII.
fn digits(reader: &Reader) {
    for (value, digit) in "0123456789abcdef".chars().enumerate() {
        for digit in [digit, digit.to_ascii_uppercase()] {
            let lines = [format!("R {digit}"), format!("R {digit}0"), format!("R 1{digit}")];
            for (line, size) in lines.iter().zip([value, 16 * value, 16 + value]) {
                says(reader, LITTLE, line, size);
            }
            for (line, size) in lines.iter().zip([value, 10 * value, 10 + value]) {
                match value {
                    0..=9 => says(reader, LITTLE_TEN, line, size),
                    _ => bad_line(reader, LITTLE_TEN, line),
                }
            }
        }
    }
    for strange in ['/', ':', '@', 'G', '`', 'g'] {
        for line in [format!("R {strange}"), format!("R {strange}0"), format!("R 1{strange}")] {
            bad_line(reader, LITTLE, &line);
            bad_line(reader, LITTLE_TEN, &line);
        }
    }
}

/// In the other base the same digits say another size, and the frame tells which.
fn unlike_sizes(reader: &Reader) {
    for (line, ten, sixteen) in [("R 974", 974, 2_420), ("R 308", 308, 776), ("R 10", 10, 16)] {
        says(reader, LITTLE_TEN, line, ten);
        says(reader, LITTLE, line, sixteen);
        assert_eq!((reader.frame_count)(LITTLE, &with_registers(line, ten)).refusal, 9, "{line}");
        assert_eq!((reader.frame_count)(LITTLE_TEN, &with_registers(line, sixteen)).refusal, 9, "{line}");
    }
}

/// A frame of 31 bytes that both bases read to its end: registers of 11 bytes and eight bytes of memory, or registers of
/// 17 and a variable.
fn read_in_both_bases(reader: &Reader) {
    let file = trace(b"R 11\n\n\x01\0\x1F\0\0\0R-----------M\x05\0\0\0\0V\0\0\x08\0\xFE\xFF\xFF\xFF\xFF\xFF\xFF\xFF");
    let memory = Block { letter: b'M', place: 32, address: 0x5600_0000_0005, length: 8, ..Block::default() };
    let variable = Block { letter: b'V', place: 38, number: 0x0008_0000, value: -2, ..Block::default() };
    for (settings, size, block) in [(LITTLE_TEN, 11, memory), (LITTLE, 17, variable)] {
        assert_eq!((reader.registers_place)(settings, &file, 0), Place { refusal: 0, place: 21, length: size });
        let registers = Block { letter: b'R', place: 20, ..Block::default() };
        assert_eq!((reader.block_record)(settings, &file, 0, 0), registers);
        assert_eq!((reader.block_record)(settings, &file, 0, 1), block);
        assert_eq!((reader.block_record)(settings, &file, 0, 2).refusal, 12);
    }
}

/// Another base is 2 ahead of everything in the file, and where no R line is read.
fn wrong_bases(reader: &Reader) {
    for base in [0, 1, 2, 8, 9, 11, 15, 17, 26, 160, 255] {
        for order in [0, 1, 2] {
            for rest in [&b"\n"[..], b"R 2\n\n\x01\0\x03\0\0\0R\xAA\xBB", b"R x\n\n", b""] {
                every_call_refuses(reader, Settings { order, base }, &trace(rest), 2);
            }
            every_call_refuses(reader, Settings { order, base }, &H[1..], 2);
        }
    }
}

/// Both traces are read with the same settings. A number that is spelled otherwise makes another opening.
fn joins(reader: &Reader) {
    let frame = [b"\x01\0\x0B\0\0\0R", &[b'V'; 10][..]].concat();
    let of = |digits: &str, frames: usize| trace(&[b"R ", digits.as_bytes(), b"\n\n", &frame.repeat(frames)].concat());
    for (settings, digits, others) in [(LITTLE, "a", ["A", "0a", "00A"]), (LITTLE_TEN, "10", ["010", "0010", "00010"])]
    {
        edited(&of(digits, 3), |out| (reader.join)(settings, &of(digits, 1), &of(digits, 2), out));
        let keep_none = Selection { keep: 1, ..Selection::default() };
        edited(&of(digits, 0), |out| (reader.cut)(settings, &of(digits, 2), keep_none, out));
        for other in others {
            assert_eq!((reader.join)(settings, &of(digits, 1), &of(other, 1), &mut [0; 99]).refusal, 13);
            assert_eq!((reader.pair_place)(settings, &of(digits, 1), &of(other, 1), 0).refusal, 13);
        }
    }
    // In base 10 `a` is no digit; in base 16 a block of 10 bytes is too short for `10`.
    for (settings, good, bad, refusal) in [(LITTLE_TEN, "10", "a", 5), (LITTLE, "a", "10", 9)] {
        for (first, second) in [(good, bad), (bad, good), (bad, bad)] {
            assert_eq!((reader.join)(settings, &of(first, 1), &of(second, 1), &mut [0; 99]).refusal, refusal);
            assert_eq!((reader.pair_place)(settings, &of(first, 1), &of(second, 1), 0).refusal, refusal);
        }
    }
}
