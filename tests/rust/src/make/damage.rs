//! Damage to a file, done without regard to what it says.

use super::{Made, Random};

/// A file with one to three bytes or stretches of it spoilt.
pub fn damaged(random: &mut Random, mut bytes: Vec<u8>) -> Made {
    for _ in 0..random.pick(&[1, 1, 1, 2, 3]) {
        spoil(random, &mut bytes);
    }
    Made::new("damaged", bytes, None)
}

fn spoil(random: &mut Random, bytes: &mut Vec<u8>) {
    if bytes.is_empty() {
        return;
    }
    let place = random.below(bytes.len());
    match random.below(7) {
        0 => bytes[place] = random.byte(),
        1 => bytes[place] = bytes[place].wrapping_add(1),
        2 => bytes[place] = bytes[place].wrapping_sub(1),
        3 => bytes[place] = random.pick(&[0, 1, 0x7F, 0x80, 0xFF, b'\n', b'R', b'M', b'V']),
        4 => {
            bytes.remove(place);
        }
        5 => bytes.insert(place, random.byte()),
        _ => {
            let end = bytes.len().min(place + 1 + random.below(8));
            bytes.copy_within(place..end, random.below(place + 1));
        }
    }
}

/// The front of a file, cut at any place.
pub fn shortened(random: &mut Random, bytes: Vec<u8>) -> Made {
    let length = random.below(bytes.len() + 1);
    Made::front("shortened", bytes, length, None)
}

/// Every front of a file, the empty and the whole one among them.
pub fn every_front(bytes: &[u8]) -> impl Iterator<Item = Made> + '_ {
    (0..=bytes.len()).map(|length| Made::front("every front", bytes.to_vec(), length, None))
}

/// Every file that differs from this one in the value of one byte.
pub fn every_byte(bytes: &[u8]) -> impl Iterator<Item = Made> + '_ {
    (0..bytes.len()).flat_map(move |place| {
        (1..=255).map(move |change: u8| {
            let mut changed = bytes.to_vec();
            changed[place] ^= change;
            Made::new("every byte", changed, None)
        })
    })
}
