//! The library's functions as include/tufakpeni.h declares them, and a safe function over each. All unsafe code stands here.
//!
//! Each call is sound for the same reasons: a slice's pointer and length name bytes that live as long as the call, an output is lent
//! alone (`&mut`) so that it overlaps no file, every bit pattern of an answer is a value of its type, and the library keeps no pointer.
//! The library's interface is asked for its number before the first of them.
use crate::Refusal;
use std::sync::OnceLock;

#[repr(C)]
struct Settings {
    order: u8,
    base: u8,
}

#[repr(C)]
pub struct Count {
    refusal: u8,
    pub count: usize,
}

#[repr(C)]
pub struct Mark {
    refusal: u8,
    pub marked: u8,
}

#[repr(C)]
pub struct Place {
    refusal: u8,
    pub place: usize,
    pub length: usize,
}

#[repr(C)]
pub struct FramePart {
    refusal: u8,
    pub place: usize,
    pub length: usize,
    pub heads: usize,
}

#[repr(C)]
pub struct Line {
    refusal: u8,
    pub kind: u8,
    pub place: usize,
    pub length: usize,
}

#[repr(C)]
#[derive(Clone, Copy, Debug, Default)]
pub struct Frame {
    pub tracepoint: u16,
    pub has_registers: u8,
    pub place: usize,
    pub size: usize,
    pub registers_place: usize,
}

#[repr(C)]
pub struct Block {
    refusal: u8,
    pub letter: u8,
    pub number: u32,
    pub place: usize,
    pub address: u64,
    pub length: usize,
    pub value: i64,
}

#[repr(C)]
pub struct Value {
    refusal: u8,
    pub value: i64,
}

#[repr(C)]
#[derive(Clone, Copy, Debug, Default, PartialEq, Eq)]
pub struct Range {
    pub low: u16,
    pub high: u16,
}

#[repr(C)]
#[derive(Clone, Copy, Debug, PartialEq, Eq)]
pub struct Selection {
    pub ranges: [Range; 8],
    pub count: usize,
    pub keep: u8,
}

#[repr(C)]
pub struct Length {
    refusal: u8,
    pub length: usize,
}

#[repr(C)]
pub struct PairPart {
    refusal: u8,
    pub trace: u8,
    pub place: usize,
    pub length: usize,
}

#[repr(C)]
#[derive(Clone, Copy, Debug)]
pub struct Part {
    pub place: usize,
    pub size: usize,
}

#[repr(C)]
#[derive(Clone, Copy, Debug)]
pub struct DatSummary {
    refusal: u8,
    pub order: u8,
    pub long_size: u8,
    pub ending: u8,
    pub page_size: u32,
    pub format_count: u32,
    pub system_count: u32,
    pub cpu_count: u32,
    pub header_page: Part,
    pub header_event: Part,
    pub formats: Part,
    pub systems: Part,
    pub kallsyms: Part,
    pub printk: Part,
    pub processes: Part,
    pub options: Part,
    pub body: Part,
}

#[repr(C)]
pub struct CpuRange {
    refusal: u8,
    pub offset: u64,
    pub size: u64,
}

/// The number of the interface that is declared here, as include/tufakpeni.h had it.
const INTERFACE: u64 = 6;

extern "C" {
    fn tfk_interface() -> u64;
}

/// Ends with both numbers where the library has another interface: it would take and answer structs of another layout.
fn demand_fit() {
    static FITS: OnceLock<()> = OnceLock::new();
    FITS.get_or_init(|| {
        // SAFETY: no struct and no pointer crosses, and every interface has this call.
        let number = unsafe { tfk_interface() };
        assert!(number == INTERFACE, "the library's interface has the number {number}, this crate's {INTERFACE}");
    });
}

/// Declares the library's functions. Each can be called only through one of the same name that first asks whether the library fits.
macro_rules! calls {
    ($(fn $name:ident($($given:ident: $kind:ty),* $(,)?) -> $answer:ty;)*) => {
        mod unasked {
            use super::*;

            extern "C" {
                $(pub fn $name($($given: $kind),*) -> $answer;)*
            }
        }

        $(unsafe fn $name($($given: $kind),*) -> $answer {
            demand_fit();
            unasked::$name($($given),*)
        })*
    };
}

calls! {
    fn tfk_frame_count(settings: Settings, file: *const u8, file_length: usize) -> Count;
    fn tfk_end_mark(settings: Settings, file: *const u8, file_length: usize) -> Mark;
    fn tfk_frame_table(
        settings: Settings,
        file: *const u8,
        file_length: usize,
        out: *mut Frame,
        out_length: usize,
    ) -> Count;
    fn tfk_line_place(settings: Settings, file: *const u8, file_length: usize, j: usize) -> Line;
    fn tfk_frame_place(settings: Settings, file: *const u8, file_length: usize, n: usize) -> FramePart;
    fn tfk_block_record(settings: Settings, file: *const u8, file_length: usize, n: usize, k: usize) -> Block;
    fn tfk_memory_place(settings: Settings, file: *const u8, file_length: usize, n: usize, address: u64) -> Place;
    fn tfk_variable(settings: Settings, file: *const u8, file_length: usize, n: usize, number: u32) -> Value;
    fn tfk_opposite(selection: Selection) -> Selection;
    fn tfk_cut(
        settings: Settings,
        file: *const u8,
        file_length: usize,
        selection: Selection,
        out: *mut u8,
        out_length: usize,
    ) -> Length;
    fn tfk_join(
        settings: Settings,
        first: *const u8,
        first_length: usize,
        second: *const u8,
        second_length: usize,
        out: *mut u8,
        out_length: usize,
    ) -> Length;
    fn tfk_pair_place(
        settings: Settings,
        first: *const u8,
        first_length: usize,
        second: *const u8,
        second_length: usize,
        n: usize,
    ) -> PairPart;
    fn tfk_pair_variable(
        settings: Settings,
        first: *const u8,
        first_length: usize,
        second: *const u8,
        second_length: usize,
        n: usize,
        number: u32,
    ) -> Value;
    fn tfk_dat_read(file: *const u8, file_length: usize) -> DatSummary;
    fn tfk_dat_cpu_range(file: *const u8, file_length: usize, i: usize) -> CpuRange;
}

/// An answer that may be a refusal.
trait Answer: Sized {
    fn refusal(&self) -> u8;

    fn answered(self) -> Result<Self, Refusal> {
        match self.refusal() {
            0 => Ok(self),
            n => Err(Refusal::of_number(n).expect("the library refuses by the numbers of its header")),
        }
    }
}

macro_rules! answers {
    ($($answer:ty),*) => {
        $(impl Answer for $answer {
            fn refusal(&self) -> u8 {
                self.refusal
            }
        })*
    };
}

answers!(Count, Mark, Place, FramePart, Line, Block, Value, Length, PairPart, DatSummary, CpuRange);

impl From<crate::Settings> for Settings {
    fn from(given: crate::Settings) -> Settings {
        Settings { order: given.order.number(), base: given.base.number() }
    }
}

pub fn frame_count(settings: crate::Settings, file: &[u8]) -> Result<Count, Refusal> {
    unsafe { tfk_frame_count(settings.into(), file.as_ptr(), file.len()) }.answered()
}

pub fn end_mark(settings: crate::Settings, file: &[u8]) -> Result<Mark, Refusal> {
    unsafe { tfk_end_mark(settings.into(), file.as_ptr(), file.len()) }.answered()
}

pub fn frame_table(settings: crate::Settings, file: &[u8], out: &mut [Frame]) -> Result<Count, Refusal> {
    unsafe { tfk_frame_table(settings.into(), file.as_ptr(), file.len(), out.as_mut_ptr(), out.len()) }.answered()
}

pub fn line_place(settings: crate::Settings, file: &[u8], j: usize) -> Result<Line, Refusal> {
    unsafe { tfk_line_place(settings.into(), file.as_ptr(), file.len(), j) }.answered()
}

pub fn frame_place(settings: crate::Settings, file: &[u8], n: usize) -> Result<FramePart, Refusal> {
    unsafe { tfk_frame_place(settings.into(), file.as_ptr(), file.len(), n) }.answered()
}

pub fn block_record(settings: crate::Settings, file: &[u8], n: usize, k: usize) -> Result<Block, Refusal> {
    unsafe { tfk_block_record(settings.into(), file.as_ptr(), file.len(), n, k) }.answered()
}

pub fn memory_place(settings: crate::Settings, file: &[u8], n: usize, address: u64) -> Result<Place, Refusal> {
    unsafe { tfk_memory_place(settings.into(), file.as_ptr(), file.len(), n, address) }.answered()
}

pub fn variable(settings: crate::Settings, file: &[u8], n: usize, number: u32) -> Result<Value, Refusal> {
    unsafe { tfk_variable(settings.into(), file.as_ptr(), file.len(), n, number) }.answered()
}

pub fn opposite(selection: Selection) -> Selection {
    unsafe { tfk_opposite(selection) }
}

pub fn cut(settings: crate::Settings, file: &[u8], selection: Selection, out: &mut [u8]) -> Result<Length, Refusal> {
    unsafe { tfk_cut(settings.into(), file.as_ptr(), file.len(), selection, out.as_mut_ptr(), out.len()) }.answered()
}

pub fn join(settings: crate::Settings, first: &[u8], second: &[u8], out: &mut [u8]) -> Result<Length, Refusal> {
    unsafe {
        let (f, s) = (first.as_ptr(), second.as_ptr());
        tfk_join(settings.into(), f, first.len(), s, second.len(), out.as_mut_ptr(), out.len())
    }
    .answered()
}

pub fn pair_place(settings: crate::Settings, first: &[u8], second: &[u8], n: usize) -> Result<PairPart, Refusal> {
    unsafe { tfk_pair_place(settings.into(), first.as_ptr(), first.len(), second.as_ptr(), second.len(), n) }.answered()
}

pub fn pair_variable(
    settings: crate::Settings,
    first: &[u8],
    second: &[u8],
    n: usize,
    number: u32,
) -> Result<Value, Refusal> {
    unsafe {
        let (f, s) = (first.as_ptr(), second.as_ptr());
        tfk_pair_variable(settings.into(), f, first.len(), s, second.len(), n, number)
    }
    .answered()
}

pub fn dat_read(file: &[u8]) -> Result<DatSummary, Refusal> {
    unsafe { tfk_dat_read(file.as_ptr(), file.len()) }.answered()
}

pub fn dat_cpu_range(file: &[u8], i: usize) -> Result<CpuRange, Refusal> {
    unsafe { tfk_dat_cpu_range(file.as_ptr(), file.len(), i) }.answered()
}

#[cfg(test)]
#[path = "../../../tests/interface/layout.rs"]
mod layout;
