//! Made files: valid ones of both formats, damaged ones, and ones at both sides of each edge of the rules.

pub mod damage;
pub mod dat;
pub mod dat_edges;
pub mod gdb;
pub mod gdb_edges;
pub mod longest;
pub mod partial_edges;
mod random;
pub mod register_edges;
pub mod selection;
pub mod settings;
pub mod size_edges;
pub mod variable_edges;

pub use random::Random;

use crate::c::Settings;
use dat::Dat;
use gdb::Trace;

/// A made file. What follows the file in `bytes` is not lent, so that reading on would be seen.
#[derive(Clone)]
pub struct Made {
    pub name: &'static str,
    bytes: Vec<u8>,
    length: usize,
    /// What the file's making settles: 0 where it is to be accepted, or its refusal.
    pub refusal: Option<u8>,
}

impl Made {
    pub fn new(name: &'static str, bytes: Vec<u8>, refusal: Option<u8>) -> Self {
        let length = bytes.len();
        Made { name, bytes, length, refusal }
    }

    /// The first `length` bytes of a file.
    pub fn front(name: &'static str, bytes: Vec<u8>, length: usize, refusal: Option<u8>) -> Self {
        Made { name, bytes, length, refusal }
    }

    pub fn file(&self) -> &[u8] {
        &self.bytes[..self.length]
    }
}

/// A made GDB trace with the settings that it was made for, and another to be joined with it.
#[derive(Clone)]
pub struct MadeTrace {
    pub made: Made,
    pub settings: Settings,
    pub partner: Vec<u8>,
}

/// A trace of any sort, in any byte order and base.
pub fn any_trace(random: &mut Random) -> MadeTrace {
    let settings = settings::right(random);
    let trace = Trace::valid(random, settings);
    let made = match random.below(27) {
        0..=5 => Made::new("valid", trace.bytes(), Some(0)),
        6 | 7 => damage::shortened(random, trace.bytes()),
        8..=11 => damage::damaged(random, trace.bytes()),
        12 | 13 => random.pick(&size_edges::EDGES)(random, settings),
        14..=17 => random.pick(&register_edges::EDGES)(random, settings),
        18 | 19 => random.pick(&variable_edges::EDGES)(random, settings),
        20 => random.pick(&partial_edges::EDGES)(random, settings),
        _ => random.pick(&gdb_edges::EDGES)(random, settings),
    };
    let partner = partner(random, &trace, &made);
    MadeTrace { made, settings, partner }
}

/// A file to be joined with a made one: of the same opening, of one that differs a little, or of any sort.
fn partner(random: &mut Random, trace: &Trace, made: &Made) -> Vec<u8> {
    let mut sibling = trace.sibling(random);
    match random.below(9) {
        0..=2 => sibling.bytes(),
        3 => {
            sibling.frames.clear();
            sibling.bytes()
        }
        4 => made.file().to_vec(),
        5 => damage::damaged(random, made.file().to_vec()).bytes,
        6 => {
            let settings = Settings { order: trace.settings.order, ..settings::right(random) };
            Trace::valid(random, settings).bytes()
        }
        7 => {
            sibling.respell();
            sibling.bytes()
        }
        _ => {
            sibling.lines.push(b"tp 1".to_vec());
            sibling.bytes()
        }
    }
}

/// A trace.dat file of any sort.
pub fn any_dat(random: &mut Random) -> Made {
    match random.below(10) {
        0..=2 => Made::new("valid", Dat::valid(random).bytes(), Some(0)),
        3 => {
            let bytes = Dat::valid(random).bytes();
            damage::shortened(random, bytes)
        }
        4 | 5 => {
            let dat = Dat::valid(random);
            let bytes = if random.one_in(2) { dat.bytes() } else { dat.header().bytes };
            damage::damaged(random, bytes)
        }
        _ => random.pick(&dat_edges::EDGES)(random),
    }
}

/// Writes a number of `width` bytes: order 0 little, 1 big.
pub fn put(bytes: &mut Vec<u8>, order: u8, width: usize, number: u64) {
    bytes.extend_from_slice(&number.to_le_bytes()[..width]);
    if order == 1 {
        let start = bytes.len() - width;
        bytes[start..].reverse();
    }
}

/// Writes a number over what stands at a place.
pub fn put_at(bytes: &mut [u8], place: usize, order: u8, width: usize, number: u64) {
    let mut field = Vec::new();
    put(&mut field, order, width, number);
    bytes[place..place + width].copy_from_slice(&field);
}
