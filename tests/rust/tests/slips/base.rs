//! Slips about the base of the R line.

use super::{instead, Slip};
use std::ops::Range;
use tufakpeni_tests::answers::{Answer, SECOND};
use tufakpeni_tests::c::{Count, Length, Place, Selection, Settings};
use tufakpeni_tests::make::settings::other_base;
use tufakpeni_tests::reader::Reader;
use tufakpeni_tests::second::Refusal;

pub const LINE_SLIPS: [Slip; 10] = [
    ("five digits in base 16", Reader { frame_count: five_digits, ..SECOND }),
    ("six digits in base 10", Reader { frame_count: six_digits, ..SECOND }),
    ("g let through", Reader { frame_count: g_as_digit, ..SECOND }),
    ("upper case refused", Reader { frame_count: no_upper_case, ..SECOND }),
    ("letters let through in base 10", Reader { frame_count: letters_in_ten, ..SECOND }),
    ("a prefix let through", Reader { frame_count: prefix_left_out, ..SECOND }),
    ("the value times 10 in base 16", Reader { frame_count: times_ten, ..SECOND }),
    ("base 10 for base 16", Reader { frame_count: |settings, file| exchanged(16, settings, file), ..SECOND }),
    ("base 16 for base 10", Reader { frame_count: |settings, file| exchanged(10, settings, file), ..SECOND }),
    ("registers in the other base", Reader { registers_place: registers_of_other_base, ..SECOND }),
];

pub const BASE_SLIPS: [Slip; 5] = [
    ("base 8 accepted", Reader { frame_count: eight_accepted, ..SECOND }),
    ("the base looked at only where an R line is read", Reader { frame_count: base_for_line_only, ..SECOND }),
    ("the head ahead of the base", Reader { frame_count: head_first, ..SECOND }),
    ("a cut written, then the base refused", Reader { cut: cut_first, ..SECOND }),
    ("the second of two traces in the other base", Reader { join: second_in_other_base, ..SECOND }),
];

macro_rules! in_any_base {
    ($($call:ident($($argument:ident),*))*) => {
        [$((
            concat!(stringify!($call), " in any base"),
            Reader { $call: |settings, $($argument),*| (SECOND.$call)(righted(settings), $($argument),*), ..SECOND },
        )),*]
    };
}

/// A wrong base let through by one call, of each that takes settings.
pub const CALL_SLIPS: [Slip; 13] = in_any_base! {
    frame_count(file) end_mark(file) frame_table(file, records) line_place(file, j) frame_place(file, n)
    block_record(file, n, k) registers_place(file, n) memory_place(file, n, address) variable(file, n, number)
    cut(file, selection, out) join(first, second, out) pair_place(first, second, n)
    pair_variable(first, second, n, number)
};

pub const DEFAULT_SLIPS: [Slip; 2] = [
    ("base 10 as the default", Reader { default_settings: |order| Settings { order, base: 10 }, ..SECOND }),
    ("one byte order as the default", Reader { default_settings: |_| Settings { order: 0, base: 16 }, ..SECOND }),
];

/// Base 16 for a base that is none.
fn righted(settings: Settings) -> Settings {
    Settings { base: if settings.base == 10 { 10 } else { 16 }, ..settings }
}

/// Where the digits of the first R line stand.
fn size(file: &[u8]) -> Option<Range<usize>> {
    let mut place = 8;
    for line in file.get(place..)?.split(|&byte| byte == b'\n').take_while(|line| !line.is_empty()) {
        if line.starts_with(b"R ") {
            return Some(place + 2..place + line.len());
        }
        place += line.len() + 1;
    }
    None
}

/// The count of the file with other digits in its R line, where there are such for this base.
fn respelled(base: u8, settings: Settings, file: &[u8], other: impl FnOnce(&[u8]) -> Option<Vec<u8>>) -> Count {
    let read = size(file).filter(|_| settings.base == base).and_then(|size| {
        let digits = other(&file[size.clone()])?;
        Some([&file[..size.start], &digits, &file[size.end..]].concat())
    });
    (SECOND.frame_count)(settings, read.as_deref().unwrap_or(file))
}

fn without_zero(most: usize, digits: &[u8]) -> Option<Vec<u8>> {
    let rest = digits.strip_prefix(b"0")?;
    (rest.len() == most).then(|| rest.to_vec())
}

fn five_digits(settings: Settings, file: &[u8]) -> Count {
    respelled(16, settings, file, |digits| without_zero(4, digits))
}

fn six_digits(settings: Settings, file: &[u8]) -> Count {
    respelled(10, settings, file, |digits| without_zero(5, digits))
}

fn g_as_digit(settings: Settings, file: &[u8]) -> Count {
    let read = |&digit: &u8| if digit == b'g' { b'f' } else { digit };
    respelled(16, settings, file, |digits| Some(digits.iter().map(read).collect()))
}

fn no_upper_case(settings: Settings, file: &[u8]) -> Count {
    respelled(16, settings, file, |digits| digits.iter().any(u8::is_ascii_uppercase).then(|| b"x".to_vec()))
}

fn letters_in_ten(settings: Settings, file: &[u8]) -> Count {
    let read = |&digit: &u8| if digit.is_ascii_hexdigit() && !digit.is_ascii_digit() { b'0' } else { digit };
    respelled(10, settings, file, |digits| Some(digits.iter().map(read).collect()))
}

fn prefix_left_out(settings: Settings, file: &[u8]) -> Count {
    let prefix = |digits: &[u8]| digits.starts_with(b"0x") || digits.starts_with(b"0X");
    respelled(16, settings, file, |digits| prefix(digits).then(|| digits[2..].to_vec()))
}

/// Each digit with its own value in base 16, and those before it times 10.
fn times_ten(settings: Settings, file: &[u8]) -> Count {
    respelled(16, settings, file, |digits| {
        let digits = (1..=4).contains(&digits.len()).then_some(digits)?;
        let values = digits.iter().map(|&digit| char::from(digit).to_digit(16)).collect::<Option<Vec<_>>>()?;
        let number = values.iter().fold(0, |number, value| 10 * number + value);
        Some(format!("{number:x}").into_bytes())
    })
}

/// The other base in this one's place.
fn exchanged(base: u8, settings: Settings, file: &[u8]) -> Count {
    let read = if settings.base == base { other_base(settings) } else { settings };
    (SECOND.frame_count)(read, file)
}

fn registers_of_other_base(settings: Settings, file: &[u8], n: usize) -> Place {
    let right = (SECOND.registers_place)(settings, file, n);
    instead(right, || Some((SECOND.registers_place)(other_base(settings), file, n)).filter(|other| other.refusal == 0))
}

fn eight_accepted(settings: Settings, file: &[u8]) -> Count {
    let read = if settings.base == 8 { righted(settings) } else { settings };
    (SECOND.frame_count)(read, file)
}

fn base_for_line_only(settings: Settings, file: &[u8]) -> Count {
    let read = if size(file).is_none() { righted(settings) } else { settings };
    (SECOND.frame_count)(read, file)
}

fn head_first(settings: Settings, file: &[u8]) -> Count {
    let read = (SECOND.frame_count)(righted(settings), file);
    if read.refusal == Refusal::BadHead as u8 {
        return read;
    }
    (SECOND.frame_count)(settings, file)
}

fn cut_first(settings: Settings, file: &[u8], selection: Selection, out: &mut [u8]) -> Length {
    (SECOND.cut)(righted(settings), file, selection, out);
    (SECOND.cut)(settings, file, selection, out)
}

fn second_in_other_base(settings: Settings, first: &[u8], second: &[u8], out: &mut [u8]) -> Length {
    let read = (SECOND.frame_count)(other_base(settings), second);
    if (SECOND.frame_count)(settings, first).refusal == 0 && read.refusal != 0 {
        return Length::refused(read.refusal);
    }
    (SECOND.join)(settings, first, second, out)
}
