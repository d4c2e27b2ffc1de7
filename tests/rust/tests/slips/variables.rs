//! Slips about which block of a variable counts.

use super::{blocks, instead, Slip};
use tufakpeni_tests::answers::SECOND;
use tufakpeni_tests::c::{Block, Settings, Value};
use tufakpeni_tests::letters::number_bytes;
use tufakpeni_tests::reader::Reader;
use tufakpeni_tests::second::Refusal;

/// A reader that chooses among the blocks of a frame that has the variable, which are all given.
macro_rules! choosing {
    (|$blocks:ident, $number:ident| $choose:expr) => {
        Reader {
            variable: |settings, file, n, number| {
                let right = (SECOND.variable)(settings, file, n, number);
                instead(right, || {
                    let ($blocks, $number) = (blocks(settings, file, n).collect::<Vec<_>>(), number);
                    let chosen: Option<i64> = $choose;
                    Some(chosen.map_or(NONE, |value| Value { refusal: 0, value }))
                })
            },
            ..SECOND
        }
    };
}

/// A reader that chooses among a variable's values in a frame of a pair that has it.
macro_rules! in_pair {
    ($choose:ident) => {
        Reader {
            pair_variable: |settings, first, second, n, number| {
                let right = (SECOND.pair_variable)(settings, first, second, n, number);
                instead(right, || {
                    let blocks = blocks_in_pair(settings, first, second, n);
                    $choose(values(&blocks, number)).map(|value| Value { value, ..right })
                })
            },
            ..SECOND
        }
    };
}

const NONE: Value = Value { refusal: Refusal::NotFound as u8, value: 0 };

pub const SLIPS: [Slip; 12] = [
    ("the earliest block of a variable", choosing!(|blocks, number| earliest(values(&blocks, number)))),
    ("the second block of a variable", choosing!(|blocks, number| values(&blocks, number).take(2).last())),
    ("the block of a variable before the last", choosing!(|blocks, number| before_last(&blocks, number))),
    ("the latest value unlike the first", choosing!(|blocks, number| unlike_first(values(&blocks, number)))),
    ("the greatest value of a variable", choosing!(|blocks, number| values(&blocks, number).max())),
    ("the last variable block, of any number", choosing!(|blocks, _number| any_value(&blocks).last())),
    ("the first variable block, of any number", choosing!(|blocks, _number| any_value(&blocks).next())),
    ("a variable's block only where it ends the frame", choosing!(|blocks, number| at_end(&blocks, number))),
    ("a variable's block looked for in all bytes", Reader { variable: in_other_bytes, ..SECOND }),
    ("a variable that only bytes have", Reader { variable: in_bytes_alone, ..SECOND }),
    ("the earliest block of a variable in a pair", in_pair!(earliest)),
    ("the latest value unlike the first in a pair", in_pair!(unlike_first)),
];

fn value(block: &Block, number: u32) -> Option<i64> {
    (block.letter == b'V' && block.number == number).then_some(block.value)
}

fn values(blocks: &[Block], number: u32) -> impl Iterator<Item = i64> + '_ {
    blocks.iter().filter_map(move |block| value(block, number))
}

fn any_value(blocks: &[Block]) -> impl Iterator<Item = i64> + '_ {
    blocks.iter().filter(|block| block.letter == b'V').map(|block| block.value)
}

fn before_last(blocks: &[Block], number: u32) -> Option<i64> {
    let values: Vec<_> = values(blocks, number).collect();
    values.len().checked_sub(2).map_or(values.first(), |place| values.get(place)).copied()
}

fn at_end(blocks: &[Block], number: u32) -> Option<i64> {
    value(blocks.last()?, number)
}

/// The last bytes of the frame that are a variable's block with the number, in a block of any kind.
fn in_all_bytes(settings: Settings, file: &[u8], n: usize, number: u32) -> Option<Value> {
    let (_, data) = super::data(settings, file, n)?;
    let like = [&b"V"[..], &number_bytes(settings, number)].concat();
    let found = data.windows(13).rfind(|bytes| bytes.starts_with(&like))?;
    let value = found[5..].try_into().expect("8 bytes");
    let value = if settings.order == 0 { i64::from_le_bytes(value) } else { i64::from_be_bytes(value) };
    Some(Value { refusal: 0, value })
}

fn in_other_bytes(settings: Settings, file: &[u8], n: usize, number: u32) -> Value {
    instead((SECOND.variable)(settings, file, n, number), || in_all_bytes(settings, file, n, number))
}

fn in_bytes_alone(settings: Settings, file: &[u8], n: usize, number: u32) -> Value {
    let right = (SECOND.variable)(settings, file, n, number);
    if right.refusal == NONE.refusal {
        return in_all_bytes(settings, file, n, number).unwrap_or(right);
    }
    right
}

fn blocks_in_pair(settings: Settings, first: &[u8], second: &[u8], n: usize) -> Vec<Block> {
    let count = (SECOND.frame_count)(settings, first).count;
    let (file, n) = if n < count { (first, n) } else { (second, n - count) };
    blocks(settings, file, n).collect()
}

fn earliest(mut values: impl Iterator<Item = i64>) -> Option<i64> {
    values.next()
}

fn unlike_first(mut values: impl Iterator<Item = i64>) -> Option<i64> {
    let first = values.next()?;
    values.filter(|&value| value != first).last().or(Some(first))
}
