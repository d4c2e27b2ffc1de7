//! The questions about a GDB trace.

use super::lent::Table;
use super::partial::{by_record, first_refusal, Asked};
use super::tables::agrees;
use super::{ask, indices, Based, Comparer, Difference, Met, Registers, Tables, Variables};
use crate::answers::SECOND;
use crate::c::{Count, Place, Settings, LINE_R};
use crate::letters::{number_bytes, Frame, Frames};
use crate::make::{settings, MadeTrace, Random};
use crate::second::Refusal;
use std::iter::successors;

/// What the questions about a trace showed: the count of its frames, and the size of the first register block met.
#[derive(Clone, Copy)]
pub struct Shown {
    count: Count,
    registers: Option<usize>,
}

impl Comparer<'_> {
    /// The settings of a caller that says nothing of the base, for every number as the byte order.
    pub fn default_settings(&mut self) -> Result<(), Difference> {
        for order in 0..=u8::MAX {
            let (given, second) = ((self.reader.default_settings)(order), (SECOND.default_settings)(order));
            self.equal(format_args!("default_settings({order})"), given, second)?;
        }
        Ok(())
    }

    /// Every call about a made trace: as it was made to be read, in the other base, in the other byte order, and now and
    /// then with settings that are wrong.
    pub fn made_trace(&mut self, random: &mut Random, trace: &MadeTrace) -> Result<(), Difference> {
        let (file, partner, own) = (trace.made.file(), &trace.partner[..], trace.settings);
        let shown = self.trace(random, own, file, partner)?;
        self.settled(trace.made.refusal, shown.count.refusal)?;
        self.pair(random, own, partner, file)?;
        let other_base = settings::other_base(own);
        let other = self.trace(random, other_base, file, partner)?;
        self.meet_bases(shown, other);
        self.meet_other_base(own, shown, other);
        self.meet_other_base(other_base, other, shown);
        let other_order = Settings { order: 1 - own.order, ..settings::right(random) };
        self.trace(random, other_order, file, partner)?;
        if random.one_in(6) {
            let wrong = settings::wrong(random);
            self.trace(random, wrong, file, partner)?;
        }
        Ok(())
    }

    /// Every call about a trace, and about the pair of it and another.
    pub fn trace(
        &mut self,
        random: &mut Random,
        settings: Settings,
        file: &[u8],
        partner: &[u8],
    ) -> Result<Shown, Difference> {
        let shown = self.questions(settings, file)?;
        self.cuts(random, settings, file)?;
        self.pair(random, settings, file, partner)?;
        Ok(shown)
    }

    /// Every question about a trace, for all its lines, frames and blocks.
    fn questions(&mut self, settings: Settings, file: &[u8]) -> Result<Shown, Difference> {
        let count = ask!(self.frame_count([settings] file []))?;
        self.meet_refusal(settings, count.refusal);
        let apart = Frames::read(settings, file);
        for shown in apart.iter().flat_map(|apart| Registers::of_trace(apart, count.refusal)) {
            self.meet(Met::registers(shown, settings));
        }
        let mark = ask!(self.end_mark([settings] file []))?;
        if mark.refusal == 0 {
            self.meet(Met::Marked(mark.marked == 1));
        }
        let sound = apart.as_ref().filter(|_| count.refusal == 0);
        let table = self.tables(settings, file, count.count, sound)?;
        self.frame_places(settings, file, count, &table, apart.as_ref())?;
        self.lines(settings, file)?;
        let frames = sound.map_or(&[][..], |sound| &sound.frames);
        let mut registers = None;
        for n in indices(count.count, self.most) {
            let shown = self.frame(settings, file, n, frames.get(n))?;
            if n < count.count && !agrees(&table.row(n), &shown) {
                return Err(Difference::new(format_args!("record and registers of frame {n}"), table.row(n), shown));
            }
            registers = registers.or((shown.refusal == 0).then_some(shown.length));
        }
        Ok(Shown { count, registers })
    }

    fn lines(&mut self, settings: Settings, file: &[u8]) -> Result<(), Difference> {
        for j in 0.. {
            let line = ask!(self.line_place([settings] file [j]))?;
            if line.refusal != 0 {
                break;
            }
            if line.kind == LINE_R {
                let digits = &file[line.place + b"R ".len()..line.place + line.length];
                Based::of_digits(settings.base, digits).for_each(|based| self.meet(Met::Based(based)));
            }
        }
        ask!(self.line_place([settings] file [usize::MAX])).map(drop)
    }

    /// The frame table in no records, in one too few, in just enough and in more; the answer is the last, as the reader wrote it.
    fn tables(
        &mut self,
        settings: Settings,
        file: &[u8],
        count: usize,
        sound: Option<&Frames>,
    ) -> Result<Table, Difference> {
        let shown = sound.map_or(Vec::new(), Tables::of_trace);
        shown.into_iter().for_each(|shown| self.meet(Met::tables(shown, settings)));
        let has_registers = sound.is_some_and(|sound| sound.frames.iter().any(Frame::has_registers));
        for room in [0, count.saturating_sub(1), count] {
            self.table(settings, file, room, has_registers)?;
        }
        self.table(settings, file, count + 2, has_registers)
    }

    fn table(
        &mut self,
        settings: Settings,
        file: &[u8],
        room: usize,
        has_registers: bool,
    ) -> Result<Table, Difference> {
        let (mut given, mut second) = (Table::new(room), Table::new(room));
        let call = format_args!("frame_table({settings:?}, {room} records)");
        let answer = self.same(
            call,
            (self.reader.frame_table)(settings, file, given.lent()),
            (SECOND.frame_table)(settings, file, second.lent()),
        )?;
        given.same(call, &second, answer.count)?;
        let shown = Tables::of_answer(answer, room).filter(|_| has_registers);
        shown.into_iter().for_each(|shown| self.meet(Met::tables(shown, settings)));
        Ok(given)
    }

    /// The data of frames by their numbers, of a refused file too. Of an accepted one they are those of its table, and
    /// the first frame that is not answered has the refusal of the whole file.
    fn frame_places(
        &mut self,
        settings: Settings,
        file: &[u8],
        count: Count,
        table: &Table,
        apart: Option<&Frames>,
    ) -> Result<(), Difference> {
        let heads = apart.map_or(0, |apart| apart.frames.len());
        let asked = apart.map(|apart| Asked::new(apart, count.refusal));
        let mut first = None;
        for n in indices(heads, self.most).chain([heads / 2, 1 << 63]) {
            let part = ask!(self.frame_place([settings] file [n]))?;
            let shown = asked.iter().flat_map(|asked| asked.shown(n, part.refusal));
            shown.for_each(|shown| self.meet(Met::partial(shown, settings)));
            let record = by_record(n, (n < count.count).then(|| table.row(n)));
            if count.refusal == 0 && part != record {
                return Err(Difference::new(format_args!("record and data of frame {n}"), record, part));
            }
            first = first.or((part.refusal != 0).then_some(part.refusal));
        }
        let whole = Some(first_refusal(count.refusal));
        if heads < self.most && first != whole {
            return Err(Difference::new("the first refusal of a frame and that of the file", first, whole));
        }
        Ok(())
    }

    /// Every question about frame n that reads the whole file; the frame is taken apart too where it is there. The
    /// answer is where its registers are.
    fn frame(&mut self, settings: Settings, file: &[u8], n: usize, apart: Option<&Frame>) -> Result<Place, Difference> {
        let registers = ask!(self.registers_place([settings] file [n]))?;
        let (mut addresses, mut numbers) = (vec![0, u64::MAX], vec![0, 1]);
        let further = successors(Some(self.most), |k| k.checked_mul(2));
        for k in (0..self.most).chain(further) {
            let block = ask!(self.block_record([settings] file [n, k]))?;
            match block.letter {
                b'M' => addresses.extend(around(block.address, block.length as u64)),
                b'V' => numbers.extend([block.number, block.number.wrapping_add(1)]),
                b'R' => {}
                _ => break,
            }
        }
        ask!(self.block_record([settings] file [n, usize::MAX]))?;
        for address in unlike(addresses) {
            ask!(self.memory_place([settings] file [n, address]))?;
        }
        for number in unlike(numbers) {
            ask!(self.variable([settings] file [n, number]))?;
            let shown = apart.map(|frame| Variables::of_frame(frame, number_bytes(settings, number)));
            shown.into_iter().flatten().for_each(|shown| self.meet(Met::variables(shown, settings)));
        }
        Ok(registers)
    }

    /// Refusals that go by the base.
    fn meet_refusal(&mut self, settings: Settings, refusal: u8) {
        const WRONG: u8 = Refusal::BadArgument as u8;
        const BAD: u8 = Refusal::BadLine as u8;
        match (refusal, settings) {
            (WRONG, Settings { order: 0 | 1, .. }) => self.meet(Met::Based(Based::Wrong)),
            (BAD, Settings { base: 10, .. }) => self.meet(Met::Based(Based::BadTen)),
            (BAD, _) => self.meet(Met::Based(Based::BadSixteen)),
            _ => {}
        }
    }

    /// What a trace with register blocks shows in its own base and in the other.
    fn meet_bases(&mut self, own: Shown, other: Shown) {
        const AT_BLOCK: [u8; 2] = [Refusal::BadLetter as u8, Refusal::BlockPastData as u8];
        if own.registers.is_none() {
            return;
        }
        if AT_BLOCK.contains(&other.count.refusal) {
            self.meet(Met::Based(Based::BlockRefused));
        }
        if other.registers.is_some() && other.registers != own.registers {
            self.meet(Met::Based(Based::BlockUnlike));
        }
    }

    /// A trace that has a second register block in a frame only in the base other than this.
    fn meet_other_base(&mut self, settings: Settings, this: Shown, other: Shown) {
        if this.registers.is_some() && other.count.refusal == Refusal::SecondRegisters as u8 {
            self.meet(Met::registers(Registers::OtherBase, settings));
        }
    }
}

/// The first and last address of a block, those beside them, and one inside.
fn around(address: u64, length: u64) -> [u64; 5] {
    let beyond = address.wrapping_add(length);
    [address.wrapping_sub(1), address, address.wrapping_add(length / 2), beyond.wrapping_sub(1), beyond]
}

fn unlike<T: Ord>(mut items: Vec<T>) -> Vec<T> {
    items.sort_unstable();
    items.dedup();
    items
}
