//! Cutting and joining traces, and two traces read as if joined.
use crate::{raw, Refusal, Settings, LONGEST};
use std::ops::RangeInclusive;

/// The tracepoint numbers whose frames a cut holds: those in some of up to 8 ranges, or those in none.
///
/// Any ranges can be put into it; [`cut`] refuses one with low above high, and more than 8, by [`Refusal::BadArgument`].
#[derive(Clone, Copy, Debug, PartialEq, Eq)]
pub struct Selection(raw::Selection);

impl Selection {
    /// The numbers in some of the ranges.
    pub fn keep(ranges: impl IntoIterator<Item = RangeInclusive<u16>>) -> Selection {
        Selection::new(ranges, true)
    }

    /// The numbers in none of the ranges.
    pub fn drop(ranges: impl IntoIterator<Item = RangeInclusive<u16>>) -> Selection {
        Selection::new(ranges, false)
    }

    fn new(ranges: impl IntoIterator<Item = RangeInclusive<u16>>, keep: bool) -> Selection {
        let mut selection = raw::Selection { ranges: Default::default(), count: 0, keep: u8::from(keep) };
        for range in ranges {
            // A ninth range is only counted, since the library refuses the count.
            if let Some(slot) = selection.ranges.get_mut(selection.count) {
                *slot = raw::Range { low: *range.start(), high: *range.end() };
            }
            selection.count += 1;
        }
        Selection(selection)
    }

    /// The selection of the other numbers.
    ///
    /// ```
    /// use tufakpeni::Selection;
    ///
    /// assert_eq!(Selection::keep([1..=3]).opposite(), Selection::drop([1..=3]));
    /// ```
    pub fn opposite(self) -> Selection {
        Selection(raw::opposite(self.0))
    }
}

/// Writes the opening and every selected frame to `out`, and the end mark if the file has one, and answers how many bytes that is.
/// What stands behind them in `out` stays as it was; on a refusal all of it does.
///
/// ```
/// use tufakpeni::{cut, Order, Refusal, Selection};
///
/// let file = b"\x7fTRACE0\n\n\x01\0\0\0\0\0\x02\0\0\0\0\0";
/// let mut out = [7; 32];
/// let length = cut(Order::Little, file, &Selection::keep([2..=2]), &mut out)?;
/// assert_eq!(&out[..length], b"\x7fTRACE0\n\n\x02\0\0\0\0\0");
/// assert_eq!(out[length..], [7; 17]);
/// assert_eq!(cut(Order::Little, file, &Selection::keep([2..=2]), &mut out[..14]), Err(Refusal::NoRoom));
/// # Ok::<(), Refusal>(())
/// ```
pub fn cut(
    settings: impl Into<Settings>,
    file: &[u8],
    selection: &Selection,
    out: &mut [u8],
) -> Result<usize, Refusal> {
    Ok(raw::cut(settings.into(), file, selection.0, out)?.length)
}

/// The cut as bytes of its own.
pub fn cut_to_vec(settings: impl Into<Settings>, file: &[u8], selection: &Selection) -> Result<Vec<u8>, Refusal> {
    written(file.len(), |out| cut(settings, file, selection, out))
}

/// Writes the common opening, the frames of the first trace and those of the second to `out`, and one end mark if either trace has
/// one, and answers how many bytes that is. What stands behind them in `out` stays as it was; on a refusal all of it does.
///
/// ```
/// use tufakpeni::{join, Order};
///
/// let mut out = [0; 32];
/// let first = b"\x7fTRACE0\n\n\x01\0\0\0\0\0";
/// let second = b"\x7fTRACE0\n\n\x02\0\0\0\0\0";
/// let length = join(Order::Little, first, second, &mut out)?;
/// assert_eq!(&out[..length], b"\x7fTRACE0\n\n\x01\0\0\0\0\0\x02\0\0\0\0\0");
/// # Ok::<(), tufakpeni::Refusal>(())
/// ```
pub fn join(settings: impl Into<Settings>, first: &[u8], second: &[u8], out: &mut [u8]) -> Result<usize, Refusal> {
    Ok(raw::join(settings.into(), first, second, out)?.length)
}

/// The join as bytes of its own.
pub fn join_to_vec(settings: impl Into<Settings>, first: &[u8], second: &[u8]) -> Result<Vec<u8>, Refusal> {
    written(first.len() + second.len(), |out| join(settings, first, second, out))
}

/// What `write` leaves in an output of `most` bytes; no result is longer than the limit.
fn written(most: usize, write: impl FnOnce(&mut [u8]) -> Result<usize, Refusal>) -> Result<Vec<u8>, Refusal> {
    let mut out = vec![0; most.min(LONGEST)];
    let length = write(&mut out)?;
    out.truncate(length);
    Ok(out)
}

/// One trace of a pair.
#[derive(Clone, Copy, Debug, PartialEq, Eq)]
pub enum Side {
    First,
    Second,
}

/// The data of a frame of a pair.
#[derive(Clone, Copy, Debug, PartialEq, Eq)]
pub struct PairFrame<'a> {
    /// The trace that it is a frame of.
    pub side: Side,
    /// Where its data start in that file.
    pub place: usize,
    /// The data, as that part of the caller's file.
    pub data: &'a [u8],
}

/// Two traces read as if joined, with no copy made. Each question reads both whole; its refusals are those of [`join`], with
/// [`Refusal::NotFound`] in place of [`Refusal::NoRoom`].
///
/// ```
/// use tufakpeni::{Order, Pair, Side};
///
/// let first = b"\x7fTRACE0\n\n\x01\0\0\0\0\0";
/// let second = b"\x7fTRACE0\n\n\x02\0\x0D\0\0\0V\x01\0\0\0\xFE\xFF\xFF\xFF\xFF\xFF\xFF\xFF";
/// let pair = Pair::new(Order::Little, first, second);
/// assert_eq!(pair.frame(1)?.side, Side::Second);
/// assert_eq!(pair.frame(1)?.data, &second[15..]);
/// assert_eq!(pair.variable(1, 1)?, -2);
/// # Ok::<(), tufakpeni::Refusal>(())
/// ```
#[derive(Clone, Copy, Debug)]
pub struct Pair<'a> {
    pub settings: Settings,
    pub first: &'a [u8],
    pub second: &'a [u8],
}

impl<'a> Pair<'a> {
    pub fn new(settings: impl Into<Settings>, first: &'a [u8], second: &'a [u8]) -> Pair<'a> {
        Pair { settings: settings.into(), first, second }
    }

    /// The data of frame n.
    pub fn frame(&self, n: usize) -> Result<PairFrame<'a>, Refusal> {
        let found = raw::pair_place(self.settings, self.first, self.second, n)?;
        let (side, file) = match found.trace {
            0 => (Side::First, self.first),
            _ => (Side::Second, self.second),
        };
        let data = &file[found.place..found.place + found.length];
        Ok(PairFrame { side, place: found.place, data })
    }

    /// The value in the latest `V` block with that number in frame n.
    pub fn variable(&self, n: usize, number: u32) -> Result<i64, Refusal> {
        Ok(raw::pair_variable(self.settings, self.first, self.second, n, number)?.value)
    }
}
