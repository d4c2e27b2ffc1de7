//! The C interface, as `include/tufakpeni.h` declares it.

/// The number of the interface.
pub const INTERFACE: u64 = 6;

pub const LINE_OTHER: u8 = 0;
pub const LINE_R: u8 = 1;
pub const LINE_STATUS: u8 = 2;
pub const LINE_TP: u8 = 3;
pub const LINE_TSV: u8 = 4;
pub const LINE_TDESC: u8 = 5;

pub const ENDING_LATENCY: u8 = 0;
pub const ENDING_FLYRECORD: u8 = 1;

#[derive(Clone, Copy, Debug, Default, PartialEq, Eq)]
#[repr(C)]
pub struct Settings {
    pub order: u8,
    pub base: u8,
}

#[derive(Clone, Copy, Debug, Default, PartialEq, Eq)]
#[repr(C)]
pub struct Count {
    pub refusal: u8,
    pub count: usize,
}

#[derive(Clone, Copy, Debug, Default, PartialEq, Eq)]
#[repr(C)]
pub struct Mark {
    pub refusal: u8,
    pub marked: u8,
}

#[derive(Clone, Copy, Debug, Default, PartialEq, Eq)]
#[repr(C)]
pub struct Place {
    pub refusal: u8,
    pub place: usize,
    pub length: usize,
}

#[derive(Clone, Copy, Debug, Default, PartialEq, Eq)]
#[repr(C)]
pub struct FramePart {
    pub refusal: u8,
    pub place: usize,
    pub length: usize,
    pub heads: usize,
}

#[derive(Clone, Copy, Debug, Default, PartialEq, Eq)]
#[repr(C)]
pub struct Line {
    pub refusal: u8,
    pub kind: u8,
    pub place: usize,
    pub length: usize,
}

#[derive(Clone, Copy, Debug, Default, PartialEq, Eq)]
#[repr(C)]
pub struct Frame {
    pub tracepoint: u16,
    pub has_registers: u8,
    pub place: usize,
    pub size: usize,
    pub registers_place: usize,
}

#[derive(Clone, Copy, Debug, Default, PartialEq, Eq)]
#[repr(C)]
pub struct Block {
    pub refusal: u8,
    pub letter: u8,
    pub number: u32,
    pub place: usize,
    pub address: u64,
    pub length: usize,
    pub value: i64,
}

#[derive(Clone, Copy, Debug, Default, PartialEq, Eq)]
#[repr(C)]
pub struct Value {
    pub refusal: u8,
    pub value: i64,
}

#[derive(Clone, Copy, Debug, Default, PartialEq, Eq)]
#[repr(C)]
pub struct Range {
    pub low: u16,
    pub high: u16,
}

#[derive(Clone, Copy, Debug, Default, PartialEq, Eq)]
#[repr(C)]
pub struct Selection {
    pub ranges: [Range; 8],
    pub count: usize,
    pub keep: u8,
}

#[derive(Clone, Copy, Debug, Default, PartialEq, Eq)]
#[repr(C)]
pub struct Length {
    pub refusal: u8,
    pub length: usize,
}

#[derive(Clone, Copy, Debug, Default, PartialEq, Eq)]
#[repr(C)]
pub struct PairPart {
    pub refusal: u8,
    pub trace: u8,
    pub place: usize,
    pub length: usize,
}

#[derive(Clone, Copy, Debug, Default, PartialEq, Eq)]
#[repr(C)]
pub struct Part {
    pub place: usize,
    pub size: usize,
}

#[derive(Clone, Copy, Debug, Default, PartialEq, Eq)]
#[repr(C)]
pub struct DatSummary {
    pub refusal: u8,
    pub order: u8,
    pub long_size: u8,
    pub ending: u8,
    pub page_size: u32,
    pub format_count: u32,
    pub system_count: u32,
    pub cpu_count: u32,
    pub header_page: Part,
    pub header_event: Part,
    pub formats: Part,
    pub systems: Part,
    pub kallsyms: Part,
    pub printk: Part,
    pub processes: Part,
    pub options: Part,
    pub body: Part,
}

#[derive(Clone, Copy, Debug, Default, PartialEq, Eq)]
#[repr(C)]
pub struct CpuRange {
    pub refusal: u8,
    pub offset: u64,
    pub size: u64,
}

extern "C" {
    pub fn tfk_interface() -> u64;
    pub fn tfk_default_settings(order: u8) -> Settings;
    pub fn tfk_frame_count(settings: Settings, file: *const u8, file_length: usize) -> Count;
    pub fn tfk_end_mark(settings: Settings, file: *const u8, file_length: usize) -> Mark;
    pub fn tfk_frame_table(
        settings: Settings,
        file: *const u8,
        file_length: usize,
        out: *mut Frame,
        out_length: usize,
    ) -> Count;
    pub fn tfk_line_place(settings: Settings, file: *const u8, file_length: usize, j: usize) -> Line;
    pub fn tfk_frame_place(settings: Settings, file: *const u8, file_length: usize, n: usize) -> FramePart;
    pub fn tfk_block_record(settings: Settings, file: *const u8, file_length: usize, n: usize, k: usize) -> Block;
    pub fn tfk_registers_place(settings: Settings, file: *const u8, file_length: usize, n: usize) -> Place;
    pub fn tfk_memory_place(settings: Settings, file: *const u8, file_length: usize, n: usize, address: u64) -> Place;
    pub fn tfk_variable(settings: Settings, file: *const u8, file_length: usize, n: usize, number: u32) -> Value;
    pub fn tfk_opposite(selection: Selection) -> Selection;
    pub fn tfk_cut(
        settings: Settings,
        file: *const u8,
        file_length: usize,
        selection: Selection,
        out: *mut u8,
        out_length: usize,
    ) -> Length;
    pub fn tfk_join(
        settings: Settings,
        first: *const u8,
        first_length: usize,
        second: *const u8,
        second_length: usize,
        out: *mut u8,
        out_length: usize,
    ) -> Length;
    pub fn tfk_pair_place(
        settings: Settings,
        first: *const u8,
        first_length: usize,
        second: *const u8,
        second_length: usize,
        n: usize,
    ) -> PairPart;
    pub fn tfk_pair_variable(
        settings: Settings,
        first: *const u8,
        first_length: usize,
        second: *const u8,
        second_length: usize,
        n: usize,
        number: u32,
    ) -> Value;
    pub fn tfk_dat_read(file: *const u8, file_length: usize) -> DatSummary;
    pub fn tfk_dat_cpu_range(file: *const u8, file_length: usize, i: usize) -> CpuRange;
}
