//! GDB traces at both sides of each edge of the R line, in each base.

use super::gdb::{memory, registers, variable, Frame, Trace};
use super::gdb_edges::{any_frame, refused_if, Edge, ACCEPTED};
use super::{put_at, Made, Random};
use crate::c::Settings;
use crate::second::Refusal;

pub const EDGES: [Edge; 4] = [size_line, size_digits, unlike_sizes, both_sizes];

/// What may stand after `R ` in a base and what may not, as words.
struct Words {
    good: &'static str,
    bad: &'static str,
}

const TEN: Words = Words {
    good: "65535 0 00000 00776 9 10000 59999 65529 308 974",
    bad: "65536 65540 66000 70000 99999 000776 000000 123456 a F 9c4 9C4 ffff 1e3",
};

const SIXTEEN: Words = Words {
    good: "ffff FFFF fFFf 0 0000 0308 308 974 9c4 9C4 a F 9999 1e3",
    bad: "10000 65535 00000 00308 0ffff FFFFF 00000308 g G 30g G08 fffg",
};

/// What may stand there in neither base.
const BAD_IN_BOTH: [&str; 19] = [
    "",
    " 1",
    "1 ",
    "\t1",
    "1\t",
    "x",
    "1\r",
    "\r",
    "-1",
    "+1",
    "0x1",
    "0X1",
    "0x308",
    "x308",
    "308h",
    "1/",
    "\0",
    "1\0",
    "100000000000000000000000000",
];

/// A trace without registers, with an R line at any place.
fn with_size(random: &mut Random, settings: Settings, digits: &[u8]) -> Trace {
    let mut trace = Trace::with(random, settings, None);
    let place = random.below(trace.lines.len() + 1);
    trace.lines.insert(place, [b"R ", digits].concat());
    trace
}

/// Every form of an R line, good and bad.
fn size_line(random: &mut Random, settings: Settings) -> Made {
    let Words { good, bad } = if settings.base == 10 { TEN } else { SIXTEEN };
    let good = good.split(' ').map(|word| (word, false));
    let bad = bad.split(' ').chain(BAD_IN_BOTH).map(|word| (word, true));
    let (word, is_bad) = random.pick(&good.chain(bad).collect::<Vec<_>>());
    let trace = with_size(random, settings, word.as_bytes());
    Made::new("R line", trace.bytes(), refused_if(is_bad, Refusal::BadLine))
}

/// One to six digits, now and then with one that is none: beside a digit in ASCII, or a digit of the other base.
fn size_digits(random: &mut Random, settings: Settings) -> Made {
    let (all, most, none): (&[u8], _, &[u8]) = match settings.base {
        10 => (b"0123456789", 5, b"/:@AFG`afg"),
        _ => (b"0123456789abcdefABCDEF", 4, b"/:@G`g"),
    };
    let count = random.pick(&[1, 2, 3, 3, 4, 4, 5, 6]);
    let mut digits: Vec<u8> = (0..count).map(|_| random.pick(all)).collect();
    if settings.base == 10 && count == most {
        // Whatever stands behind it, the number is not above 65,535.
        digits[0] = random.pick(b"012345");
    }
    let strange = random.one_in(4);
    if strange {
        digits[random.below(count)] = random.pick(none);
    }
    let trace = with_size(random, settings, &digits);
    Made::new("digits", trace.bytes(), refused_if(strange || count > most, Refusal::BadLine))
}

/// A register block of the size that the R line says in this base; in the other base the same digits say another size.
fn unlike_sizes(random: &mut Random, settings: Settings) -> Made {
    let (ten, sixteen) = match random.below(20) {
        0 => random.pick(&[(308, 0x308), (974, 0x974)]),
        _ => random.pick(&[(10, 0x10), (11, 0x11), (19, 0x19), (20, 0x20), (64, 0x64), (100, 0x100)]),
    };
    let size = if settings.base == 10 { ten } else { sixteen };
    let (mut trace, n) = any_frame(random, settings, Some(size));
    let block = registers(random, size);
    trace.frames[n].drop_registers();
    trace.frames[n].blocks.insert(0, block);
    Made::new("unlike sizes", trace.bytes(), ACCEPTED)
}

/// A frame that is read in both bases, with a register block of another size in each: the memory block behind the shorter
/// one has in its bytes the block behind the longer one, and both end together.
struct BothSizes {
    /// The R line's digits.
    digits: &'static [u8; 2],
    data: Vec<u8>,
    /// Where the block behind the registers stands in base 10 and in base 16.
    behind: [usize; 2],
}

impl BothSizes {
    fn new(random: &mut Random, order: u8) -> Self {
        let (digits, ten, sixteen) =
            random.pick(&[(b"11", 11, 0x11), (b"17", 17, 0x17), (b"23", 23, 0x23), (b"47", 47, 0x47)]);
        let behind = [1 + ten, 1 + sixteen];
        let last = if random.one_in(2) { variable(random, order) } else { memory(random, order) };
        let mut data = registers(random, sixteen);
        data.extend_from_slice(&last);
        data[behind[0]] = b'M';
        // Where this stands in the last block, it is in the middle of its number or address.
        let length = data.len() - behind[0] - 11;
        put_at(&mut data, behind[0] + 9, order, 2, length as u64);
        BothSizes { digits, data, behind }
    }

    /// A trace with such a frame among others, whose blocks are of other kinds.
    fn trace(self, random: &mut Random, settings: Settings) -> Trace {
        let mut trace = with_size(random, settings, self.digits);
        let place = random.below(trace.frames.len() + 1);
        trace.frames.insert(place, Frame::of(vec![self.data]));
        trace
    }
}

fn both_sizes(random: &mut Random, settings: Settings) -> Made {
    let trace = BothSizes::new(random, settings.order).trace(random, settings);
    Made::new("both sizes", trace.bytes(), ACCEPTED)
}

/// The same with a second register block where the block behind the first stands in one base. In the other base the
/// letter is a byte like any other.
pub(super) fn second_in_one_base(random: &mut Random, settings: Settings) -> Made {
    let mut both = BothSizes::new(random, settings.order);
    let base = random.below(2);
    both.data[both.behind[base]] = b'R';
    let trace = both.trace(random, settings);
    let refusal = refused_if([10, 16][base] == settings.base, Refusal::SecondRegisters);
    Made::new("second block in one base", trace.bytes(), refusal)
}
