//! A GDB trace and its frames.
use crate::blocks::{Blocks, Manner};
use crate::lines::{Line, Lines};
use crate::opening::Opening;
use crate::{raw, Order, Refusal, Settings};

/// A GDB trace that was read whole and accepted.
///
/// Opening it reads the file twice, makes the frame table and finds the R line. A frame's registers come from that table, with no
/// further reading. Each other question costs in the order of the frame, or of the description, that it is about; only
/// [`is_marked`](Trace::is_marked) reads the file again. Where one frame is wanted, [`find_frame`](crate::find_frame) reads less.
#[derive(Clone, Debug)]
pub struct Trace<'a> {
    file: &'a [u8],
    opening: Opening<'a>,
    manner: Manner<'a>,
    frames: Vec<raw::Frame>,
}

impl<'a> Trace<'a> {
    /// The trace in a file, read with these settings; an [`Order`] alone is read with base 16.
    ///
    /// ```
    /// use tufakpeni::{Order, Refusal, Trace};
    ///
    /// let file = b"\x7fTRACE0\n\n\x01\0\0\0\0\0";
    /// assert_eq!(Trace::open(Order::Little, file)?.frame_count(), 1);
    /// assert_eq!(Trace::open(Order::Little, &file[..14]).unwrap_err(), Refusal::ShortHead);
    /// # Ok::<(), Refusal>(())
    /// ```
    pub fn open(settings: impl Into<Settings>, file: &'a [u8]) -> Result<Trace<'a>, Refusal> {
        let settings = settings.into();
        let count = raw::frame_count(settings, file)?.count;
        let mut frames = vec![raw::Frame::default(); count];
        raw::frame_table(settings, file, &mut frames)?;
        let opening = Opening::of(settings, file);
        Ok(Trace { file, opening, manner: opening.manner(), frames })
    }

    /// The settings that it was opened with.
    pub fn settings(&self) -> Settings {
        self.manner.settings
    }

    /// The byte order that it was opened with.
    pub fn order(&self) -> Order {
        self.settings().order
    }

    /// How many bytes a register block has, as the R line says; none where there is no such line.
    ///
    /// ```
    /// use tufakpeni::{Base, Order, Settings, Trace};
    ///
    /// let file = b"\x7fTRACE0\nR 308\n\n";
    /// assert_eq!(Trace::open(Order::Little, file)?.register_size(), Some(776));
    /// let decimal = Settings { order: Order::Little, base: Base::Ten };
    /// assert_eq!(Trace::open(decimal, file)?.register_size(), Some(308));
    /// assert_eq!(Trace::open(decimal, b"\x7fTRACE0\n\n")?.register_size(), None);
    /// # Ok::<(), tufakpeni::Refusal>(())
    /// ```
    pub fn register_size(&self) -> Option<usize> {
        self.manner.register_size
    }

    /// The head and the description, with the empty line that closes it.
    pub fn opening(&self) -> &'a [u8] {
        self.opening.bytes
    }

    /// Whether the end mark, four bytes of 0, stands behind its frames. Debuggers write it when all else is saved. The answer
    /// costs a reading of the whole file.
    ///
    /// ```
    /// use tufakpeni::{Order, Trace};
    ///
    /// let file = b"\x7fTRACE0\n\n\x01\0\0\0\0\0\0\0\0\0";
    /// assert!(Trace::open(Order::Little, file)?.is_marked());
    /// assert_eq!(Trace::open(Order::Little, file)?.frame_count(), 1);
    /// assert!(!Trace::open(Order::Little, &file[..15])?.is_marked());
    /// # Ok::<(), tufakpeni::Refusal>(())
    /// ```
    pub fn is_marked(&self) -> bool {
        raw::end_mark(self.settings(), self.file).expect("the file was accepted").marked == 1
    }

    /// The lines of the description, without the closing empty line.
    ///
    /// ```
    /// use tufakpeni::{LineKind, Order, Trace};
    ///
    /// let trace = Trace::open(Order::Little, b"\x7fTRACE0\nR 308\nstatus 0\n\n")?;
    /// let kinds: Vec<LineKind> = trace.lines().map(|line| line.kind).collect();
    /// assert_eq!(kinds, [LineKind::R, LineKind::Status]);
    /// assert_eq!(trace.lines().next().unwrap().bytes, b"R 308");
    /// # Ok::<(), tufakpeni::Refusal>(())
    /// ```
    pub fn lines(&self) -> Lines<'a> {
        self.opening.lines()
    }

    /// Line j of the description.
    pub fn line(&self, j: usize) -> Result<Line<'a>, Refusal> {
        self.opening.line(j)
    }

    pub fn frame_count(&self) -> usize {
        self.frames.len()
    }

    /// The frames, in file order.
    ///
    /// ```
    /// use tufakpeni::{Order, Trace};
    ///
    /// let trace = Trace::open(Order::Big, b"\x7fTRACE0\n\n\0\x05\0\0\0\0\0\x07\0\0\0\0")?;
    /// let numbers: Vec<u16> = trace.frames().map(|frame| frame.tracepoint()).collect();
    /// assert_eq!(numbers, [5, 7]);
    /// # Ok::<(), tufakpeni::Refusal>(())
    /// ```
    pub fn frames(&self) -> impl ExactSizeIterator<Item = Frame<'a>> + DoubleEndedIterator + '_ {
        self.frames.iter().enumerate().map(|(number, record)| self.frame_of(number, record))
    }

    /// Frame n.
    pub fn frame(&self, n: usize) -> Result<Frame<'a>, Refusal> {
        let record = self.frames.get(n).ok_or(Refusal::NotFound)?;
        Ok(self.frame_of(n, record))
    }

    fn frame_of(&self, number: usize, record: &raw::Frame) -> Frame<'a> {
        Frame::new(self.file, number, *record, self.manner)
    }

    /// The blocks of frame n. See [`Frame::blocks`].
    pub fn blocks(&self, n: usize) -> Result<Blocks<'a>, Refusal> {
        Ok(self.frame(n)?.blocks())
    }

    /// The registers of frame n. See [`Frame::registers`].
    pub fn registers(&self, n: usize) -> Result<&'a [u8], Refusal> {
        self.frame(n)?.registers()
    }

    /// Memory at an address in frame n. See [`Frame::memory`].
    pub fn memory(&self, n: usize, address: u64) -> Result<&'a [u8], Refusal> {
        self.frame(n)?.memory(address)
    }

    /// The value of a variable in frame n. See [`Frame::variable`].
    pub fn variable(&self, n: usize, number: u32) -> Result<i64, Refusal> {
        self.frame(n)?.variable(number)
    }
}

/// A frame of a trace: what was collected at one hit of a tracepoint.
///
/// The frame table says where its data and its registers are, so that they cost nothing more. Its blocks depend on the settings, the
/// R line and its data alone. So the library is asked about them in a trace that has the R line and this frame and nothing else, and
/// the place it answers is moved to the file: a question costs in the order of the frame, where in the file it would cost a reading
/// of all of it.
#[derive(Clone, Copy, Debug)]
pub struct Frame<'a> {
    file: &'a [u8],
    number: usize,
    record: raw::Frame,
    manner: Manner<'a>,
}

impl<'a> Frame<'a> {
    pub(crate) fn new(file: &'a [u8], number: usize, record: raw::Frame, manner: Manner<'a>) -> Frame<'a> {
        Frame { file, number, record, manner }
    }

    /// Which frame of the trace it is, from 0.
    pub fn number(&self) -> usize {
        self.number
    }

    /// The number of the tracepoint that it was collected at.
    pub fn tracepoint(&self) -> u16 {
        self.record.tracepoint
    }

    /// Where its data start in the file. Those of an empty frame have a place too, which may be the file's length.
    pub fn place(&self) -> usize {
        self.record.place
    }

    /// Its data, as that part of the caller's file.
    pub fn data(&self) -> &'a [u8] {
        self.part(self.record.place, self.record.size)
    }

    fn part(&self, place: usize, length: usize) -> &'a [u8] {
        &self.file[place..place + length]
    }

    /// Its blocks, in order.
    ///
    /// ```
    /// use tufakpeni::{Block, Content, Order, Trace};
    ///
    /// let file = b"\x7fTRACE0\nR 2\n\n\x01\0\x03\0\0\0R\xAA\xBB";
    /// let trace = Trace::open(Order::Little, file)?;
    /// let blocks: Vec<Block> = trace.frame(0)?.blocks().collect();
    /// assert_eq!(blocks, [Block { place: 19, content: Content::Registers(&[0xAA, 0xBB]) }]);
    /// # Ok::<(), tufakpeni::Refusal>(())
    /// ```
    pub fn blocks(&self) -> Blocks<'a> {
        let end = self.record.place + self.record.size;
        Blocks::new(self.manner, self.file, self.record.place..end)
    }

    /// This frame as the only one of a trace, and where its data stand in it.
    fn alone(&self) -> (Vec<u8>, usize) {
        let mut trace = Vec::new();
        let place = self.manner.dress(self.data(), &mut trace);
        (trace, place)
    }

    /// The part of the caller's file that is `found` in the trace of this frame alone, whose data stand at `data`.
    fn moved(&self, found: raw::Place, data: usize) -> &'a [u8] {
        self.part(found.place - data + self.record.place, found.length)
    }

    /// The place of its register block's bytes in the file, which are behind the letter; none where it has no such block. A block of
    /// size 0 has a place too, which may be the file's length.
    ///
    /// ```
    /// use tufakpeni::{Order, Trace};
    ///
    /// let file = b"\x7fTRACE0\nR 2\n\n\x01\0\x03\0\0\0R\xAA\xBB\x01\0\0\0\0\0";
    /// let trace = Trace::open(Order::Little, file)?;
    /// assert_eq!(trace.frame(0)?.registers_place(), Some(20));
    /// assert_eq!(file[20..22], [0xAA, 0xBB]);
    /// assert_eq!(trace.frame(1)?.registers_place(), None);
    /// # Ok::<(), tufakpeni::Refusal>(())
    /// ```
    pub fn registers_place(&self) -> Option<usize> {
        (self.record.has_registers == 1).then_some(self.record.registers_place)
    }

    /// The bytes of its `R` block. It has no other: a file with a second one in a frame is refused.
    ///
    /// ```
    /// use tufakpeni::{Order, Refusal, Trace};
    ///
    /// let file = b"\x7fTRACE0\nR 2\n\n\x01\0\x03\0\0\0R\xAA\xBB\x01\0\0\0\0\0";
    /// let trace = Trace::open(Order::Little, file)?;
    /// assert_eq!(trace.frame(0)?.registers()?, [0xAA, 0xBB]);
    /// assert_eq!(trace.frame(1)?.registers(), Err(Refusal::NotFound));
    ///
    /// let twice = b"\x7fTRACE0\nR 2\n\n\x01\0\x06\0\0\0R\xAA\xBBR\xCC\xDD";
    /// let refusal = Trace::open(Order::Little, twice).unwrap_err();
    /// assert_eq!(refusal, Refusal::SecondRegisters);
    /// assert_eq!(refusal.to_string(), "refusal 24: a second `R` block in a frame");
    /// # Ok::<(), Refusal>(())
    /// ```
    pub fn registers(&self) -> Result<&'a [u8], Refusal> {
        let place = self.registers_place().ok_or(Refusal::NotFound)?;
        Ok(self.part(place, self.manner.block_size()))
    }

    /// Memory from an address to the end of the earliest block that covers it. A block at the top of the address space runs on at address 0.
    ///
    /// ```
    /// use tufakpeni::{Order, Refusal, Trace};
    ///
    /// let file = b"\x7fTRACE0\n\n\x01\0\x0D\0\0\0M\xFF\xFF\xFF\xFF\xFF\xFF\xFF\xFF\x02\0\x11\x22";
    /// let trace = Trace::open(Order::Little, file)?;
    /// assert_eq!(trace.frame(0)?.memory(u64::MAX)?, [0x11, 0x22]);
    /// assert_eq!(trace.frame(0)?.memory(0)?, [0x22]);
    /// assert_eq!(trace.frame(0)?.memory(1), Err(Refusal::NotFound));
    /// # Ok::<(), Refusal>(())
    /// ```
    pub fn memory(&self, address: u64) -> Result<&'a [u8], Refusal> {
        let (alone, data) = self.alone();
        let found = raw::memory_place(self.manner.settings, &alone, 0, address)?;
        Ok(self.moved(found, data))
    }

    /// The value in the latest `V` block with that number: of a variable that was collected before and after a step, the
    /// value after it.
    ///
    /// ```
    /// use tufakpeni::{Order, Trace};
    ///
    /// let variable = |value: i64| [b"V\x01\0\0\0", &value.to_le_bytes()[..]].concat();
    /// let file = [b"\x7fTRACE0\n\n\x01\0\x1A\0\0\0", &variable(5)[..], &variable(-1)].concat();
    /// let trace = Trace::open(Order::Little, &file)?;
    /// assert_eq!(trace.frame(0)?.variable(1)?, -1);
    /// # Ok::<(), tufakpeni::Refusal>(())
    /// ```
    pub fn variable(&self, number: u32) -> Result<i64, Refusal> {
        let (alone, _) = self.alone();
        Ok(raw::variable(self.manner.settings, &alone, 0, number)?.value)
    }
}
