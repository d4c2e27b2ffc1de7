//! Cuts, joins and pairs.

use super::variables::has_unlike;
use super::{ask, indices, Comparer, Difference, Met, Variables};
use crate::answers::SECOND;
use crate::c::{Length, Selection, Settings};
use crate::letters::{number_bytes, Frames};
use crate::make::{selection, Random};
use crate::reader::Reader;
use std::fmt::Arguments;
use std::mem;

/// A cut or join by a reader into an output.
trait Edit: Fn(&Reader, &mut [u8]) -> Length {}
impl<F: Fn(&Reader, &mut [u8]) -> Length> Edit for F {}

impl Comparer<'_> {
    /// Cuts by a right selection and by its opposite, and now and then by a wrong one.
    pub(super) fn cuts(&mut self, random: &mut Random, settings: Settings, file: &[u8]) -> Result<(), Difference> {
        let right = selection::right(random);
        let opposite = self.opposite(right)?;
        let wrong = random.one_in(4).then(|| selection::wrong(random));
        if let Some(wrong) = wrong {
            self.opposite(wrong)?;
        }
        for selection in [right, opposite].into_iter().chain(wrong) {
            let call = format_args!("cut({settings:?}, {selection:?})");
            self.in_rooms(call, file.len() + 3, |reader, out| (reader.cut)(settings, file, selection, out))?;
        }
        Ok(())
    }

    /// Joins, and every question about the two traces as a pair.
    pub fn pair(
        &mut self,
        random: &mut Random,
        settings: Settings,
        first: &[u8],
        second: &[u8],
    ) -> Result<(), Difference> {
        let most = first.len() + second.len();
        let call = format_args!("join({settings:?})");
        let joined = self.in_rooms(call, most, |reader, out| (reader.join)(settings, first, second, out))?;
        if joined.refusal == 0 {
            let [first, second] = [first, second].map(|file| (SECOND.end_mark)(settings, file).marked == 1);
            self.meet(Met::Join { first, second });
        }
        let apart = [first, second].map(|file| Frames::read(settings, file).filter(|_| joined.refusal == 0));
        let first_count = (SECOND.frame_count)(settings, first).count;
        let count = first_count + (SECOND.frame_count)(settings, second).count;
        let border = first_count.saturating_sub(2)..first_count + 2;
        for n in border.chain(indices(count, 2)) {
            ask!(self.pair_place([settings] first second [n]))?;
            let number = random.pick(&[0, 1, 1, 2, 3, 1 << 31, u32::MAX]);
            ask!(self.pair_variable([settings] first second [n, number]))?;
            let (apart, n, side) = match n.checked_sub(first_count) {
                None => (&apart[0], n, Variables::OfFirst),
                Some(n) => (&apart[1], n, Variables::OfSecond),
            };
            let frame = apart.as_ref().and_then(|apart| apart.frames.get(n));
            if frame.is_some_and(|frame| has_unlike(frame, number_bytes(settings, number))) {
                self.meet(Met::variables(side, settings));
            }
        }
        Ok(())
    }

    fn opposite(&mut self, selection: Selection) -> Result<Selection, Difference> {
        let (given, second) = ((self.reader.opposite)(selection), (SECOND.opposite)(selection));
        self.equal(format_args!("opposite({selection:?})"), given, second)
    }

    /// A result with room to spare, with room for it alone, and with a byte less; the answer is the first one's.
    fn in_rooms(&mut self, call: Arguments, most: usize, edit: impl Edit) -> Result<Length, Difference> {
        let answer = self.in_room(call, most, &edit)?;
        self.in_room(call, answer.length, &edit)?;
        self.in_room(call, answer.length.saturating_sub(1), &edit)?;
        Ok(answer)
    }

    fn in_room(&mut self, call: Arguments, room: usize, edit: &impl Edit) -> Result<Length, Difference> {
        let [mut given, mut second] = mem::take(&mut self.outputs);
        given.renew(room);
        second.renew(room);
        let call = format_args!("{call} with room for {room}");
        let answer = self.same(call, edit(self.reader, given.lent()), edit(&SECOND, second.lent()))?;
        given.same(call, &second)?;
        self.outputs = [given, second];
        Ok(answer)
    }
}
