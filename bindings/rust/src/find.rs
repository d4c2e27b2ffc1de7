//! One frame by its number, where not the whole file is read.
use crate::blocks::Manner;
use crate::opening::Opening;
use crate::{raw, Frame, Refusal, Settings};

/// A tracepoint number and a size stand before a frame's data.
const FRAME_HEAD: usize = 6;

/// A frame that was looked for by its number. See [`find_frame`].
#[derive(Clone, Copy, Debug)]
pub struct FoundFrame<'a> {
    pub frame: Frame<'a>,
    /// How many frame heads were read for it: its own and that of each frame before it.
    pub heads: usize,
}

/// Frame n of a file, read with these settings; an [`Order`](crate::Order) alone is read with base 16.
///
/// Only these parts of the file are read: the opening, the heads of frames 0 to n, and the blocks of frame n. So it costs what they
/// cost, and the frame is found also where the file is at fault elsewhere. A fault in these parts is refused with its own number, whatever
/// stands elsewhere; where the file's end or the end mark comes before frame n, it is [`Refusal::NotFound`]. For many frames open a
/// trace: each call of this function walks the heads from the first one on.
///
/// ```
/// use tufakpeni::{find_frame, Order, Refusal, Trace};
///
/// // Frame 0 has no block's letter, frame 1 has registers, and of frame 2 there is one byte.
/// let file = b"\x7fTRACE0\nR 2\n\n\x01\0\x01\0\0\0?\x02\0\x03\0\0\0R\xAA\xBB\x03";
/// assert_eq!(Trace::open(Order::Little, file).unwrap_err(), Refusal::BadLetter);
///
/// let found = find_frame(Order::Little, file, 1)?;
/// assert_eq!(found.heads, 2);
/// assert_eq!((found.frame.tracepoint(), found.frame.place()), (2, 26));
/// assert_eq!(found.frame.registers()?, [0xAA, 0xBB]);
///
/// assert_eq!(find_frame(Order::Little, file, 0).unwrap_err(), Refusal::BadLetter);
/// assert_eq!(find_frame(Order::Little, file, 2).unwrap_err(), Refusal::ShortHead);
/// # Ok::<(), Refusal>(())
/// ```
pub fn find_frame(settings: impl Into<Settings>, file: &[u8], n: usize) -> Result<FoundFrame<'_>, Refusal> {
    let settings = settings.into();
    let found = raw::frame_place(settings, file, n)?;
    let manner = Opening::of(settings, file).manner();
    let record = record_of(&manner, file, &found);
    Ok(FoundFrame { frame: Frame::new(file, n, record, manner), heads: found.heads })
}

/// The record of a frame that was found. The table of a trace that has the R line and this frame, and nothing else, says the same of it
/// but for the places.
fn record_of(manner: &Manner, file: &[u8], found: &raw::FramePart) -> raw::Frame {
    let (head, end) = (found.place - FRAME_HEAD, found.place + found.length);
    let (mut alone, mut records) = (Vec::new(), [raw::Frame::default()]);
    manner.dress_as([file[head], file[head + 1]], &file[found.place..end], &mut alone);
    raw::frame_table(manner.settings, &alone, &mut records).expect("the frame was found");
    let [record] = records;
    let registers_place = match record.has_registers {
        0 => 0,
        _ => record.registers_place - record.place + found.place,
    };
    raw::Frame { place: found.place, registers_place, ..record }
}
