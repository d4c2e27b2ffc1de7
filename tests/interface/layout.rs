//! Holds Rust's declarations of the C interface, which the module above has, to the layout that is stored for their number. Both
//! packages that declare it include this file.
use super::*;
use std::fs;
use std::mem::{offset_of, size_of};

/// The size of the field that `_get` hands out.
fn size_of_field<S, F>(_get: fn(&S) -> &F) -> usize {
    size_of::<F>()
}

/// The size of each struct, and the offset and size of each of its fields, in the words of the stored layouts.
macro_rules! described {
    ($($name:ident $kind:ident { $($field:ident),+ })+) => {{
        let mut lines = Vec::new();
        $(
            // Every field is named here, or this does not compile.
            let _ = |$kind { $($field: _),+ }: $kind| ();
            lines.push(format!("struct {} {}", stringify!($name), size_of::<$kind>()));
            $(
                let (offset, size) = (offset_of!($kind, $field), size_of_field(|it: &$kind| &it.$field));
                lines.push(format!("field {} {} {offset} {size}", stringify!($name), stringify!($field)));
            )+
        )+
        lines
    }};
}

fn declared() -> Vec<String> {
    described! {
        tfk_settings Settings { order, base }
        tfk_count Count { refusal, count }
        tfk_mark Mark { refusal, marked }
        tfk_place Place { refusal, place, length }
        tfk_frame_part FramePart { refusal, place, length, heads }
        tfk_line Line { refusal, kind, place, length }
        tfk_frame Frame { tracepoint, has_registers, place, size, registers_place }
        tfk_block Block { refusal, letter, number, place, address, length, value }
        tfk_value Value { refusal, value }
        tfk_range Range { low, high }
        tfk_selection Selection { ranges, count, keep }
        tfk_length Length { refusal, length }
        tfk_pair_part PairPart { refusal, trace, place, length }
        tfk_part Part { place, size }
        tfk_dat_summary DatSummary {
            refusal, order, long_size, ending, page_size, format_count, system_count, cpu_count, header_page, header_event, formats,
            systems, kallsyms, printk, processes, options, body
        }
        tfk_cpu_range CpuRange { refusal, offset, size }
    }
}

/// The lines of a stored layout that are about structs; a field's line without its type in C, the sixth word.
fn stored(text: &str) -> Vec<String> {
    let about_structs = |line: &&str| line.starts_with("struct ") || line.starts_with("field ");
    let five_words = |line: &str| line.split(' ').take(5).collect::<Vec<_>>().join(" ");
    text.lines().filter(about_structs).map(five_words).collect()
}

#[test]
fn the_structs_have_the_layout_of_their_number() {
    let place = format!("{}/../../tests/interface/layout-{INTERFACE}.txt", env!("CARGO_MANIFEST_DIR"));
    let text = fs::read_to_string(&place).expect(&place);
    assert_eq!(declared(), stored(&text));
}

#[test]
fn the_library_has_the_same_number() {
    // SAFETY: no struct and no pointer crosses.
    assert_eq!(unsafe { tfk_interface() }, INTERFACE);
}
