//! Files put together by hand, in either byte order.
use crate::Order;

pub const ORDERS: [Order; 2] = [Order::Little, Order::Big];

pub const MARK: [u8; 4] = [0; 4];

/// The low `width` bytes of a number.
pub fn number(order: Order, width: usize, n: u64) -> Vec<u8> {
    match order {
        Order::Little => n.to_le_bytes()[..width].to_vec(),
        Order::Big => n.to_be_bytes()[8 - width..].to_vec(),
    }
}

pub fn registers(bytes: &[u8]) -> Vec<u8> {
    [b"R", bytes].concat()
}

pub fn memory(order: Order, address: u64, bytes: &[u8]) -> Vec<u8> {
    let length = number(order, 2, bytes.len() as u64);
    [b"M", &number(order, 8, address)[..], &length, bytes].concat()
}

pub fn variable(order: Order, n: u32, value: i64) -> Vec<u8> {
    [b"V", &number(order, 4, n.into())[..], &number(order, 8, value as u64)].concat()
}

pub fn frame(order: Order, tracepoint: u16, blocks: &[Vec<u8>]) -> Vec<u8> {
    let data = blocks.concat();
    let size = number(order, 4, data.len() as u64);
    [number(order, 2, tracepoint.into()), size, data].concat()
}

/// A description has its lines each with its end, and no empty one.
pub fn opening(description: &str) -> Vec<u8> {
    ["\x7fTRACE0\n", description, "\n"].concat().into_bytes()
}

pub fn trace(description: &str, frames: &[Vec<u8>]) -> Vec<u8> {
    [opening(description), frames.concat()].concat()
}

/// A file with the end mark behind it, or as it is.
pub fn marked(file: &[u8], mark: bool) -> Vec<u8> {
    let end: &[u8] = if mark { &MARK } else { &[] };
    [file, end].concat()
}

/// Whether a part is that part of the file itself, and no copy of it.
pub fn stands_at(file: &[u8], place: usize, part: &[u8]) -> bool {
    file[place..].as_ptr() == part.as_ptr()
}
