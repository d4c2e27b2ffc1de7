//! The library, called through its C interface.

use crate::c;
use crate::reader::Reader;

// SAFETY, of every call: the pointers and lengths are those of live slices, outputs are borrowed alone, and the header
// promises that nothing else is touched and nothing kept.
pub const LIBRARY: Reader = Reader {
    default_settings: |order| unsafe { c::tfk_default_settings(order) },
    frame_count: |settings, file| unsafe { c::tfk_frame_count(settings, file.as_ptr(), file.len()) },
    end_mark: |settings, file| unsafe { c::tfk_end_mark(settings, file.as_ptr(), file.len()) },
    frame_table: |settings, file, out| unsafe {
        c::tfk_frame_table(settings, file.as_ptr(), file.len(), out.as_mut_ptr().cast(), out.len())
    },
    line_place: |settings, file, j| unsafe { c::tfk_line_place(settings, file.as_ptr(), file.len(), j) },
    frame_place: |settings, file, n| unsafe { c::tfk_frame_place(settings, file.as_ptr(), file.len(), n) },
    block_record: |settings, file, n, k| unsafe { c::tfk_block_record(settings, file.as_ptr(), file.len(), n, k) },
    registers_place: |settings, file, n| unsafe { c::tfk_registers_place(settings, file.as_ptr(), file.len(), n) },
    memory_place: |settings, file, n, address| unsafe {
        c::tfk_memory_place(settings, file.as_ptr(), file.len(), n, address)
    },
    variable: |settings, file, n, number| unsafe { c::tfk_variable(settings, file.as_ptr(), file.len(), n, number) },
    opposite: |selection| unsafe { c::tfk_opposite(selection) },
    cut: |settings, file, selection, out| unsafe {
        c::tfk_cut(settings, file.as_ptr(), file.len(), selection, out.as_mut_ptr(), out.len())
    },
    join: |settings, first, second, out| unsafe {
        c::tfk_join(settings, first.as_ptr(), first.len(), second.as_ptr(), second.len(), out.as_mut_ptr(), out.len())
    },
    pair_place: |settings, first, second, n| unsafe {
        c::tfk_pair_place(settings, first.as_ptr(), first.len(), second.as_ptr(), second.len(), n)
    },
    pair_variable: |settings, first, second, n, number| unsafe {
        c::tfk_pair_variable(settings, first.as_ptr(), first.len(), second.as_ptr(), second.len(), n, number)
    },
    dat_read: |file| unsafe { c::tfk_dat_read(file.as_ptr(), file.len()) },
    dat_cpu_range: |file, i| unsafe { c::tfk_dat_cpu_range(file.as_ptr(), file.len(), i) },
};
