//! The cases of request C-19: the frame table says of each frame whether it has registers, and where, in both byte orders
//! and both bases.

use super::{with_frames, ALL};
use tufakpeni_tests::c::{Count, Frame, Settings};
use tufakpeni_tests::compare::tables::all_agree;
use tufakpeni_tests::reader::{fields, Reader, Record};

/// The yes or no of a record, and its place.
type Told = (u8, usize);
const NONE: Told = (0, 0);

/// A record as it is lent: none of its fields has a value that a call would write.
const LENT: Record = [0x8070_6050_4030_2010, 0xA1 << 56, 0xA2 << 56, 0xA3 << 56];

pub fn all(reader: &Reader) {
    places(reader);
    size_0(reader);
    no_block(reader);
    several_frames(reader);
}

/// Memory with 257 bytes, whose length reads alike in both byte orders. All else behind its letter is `R`: 268 bytes.
fn letters() -> Vec<u8> {
    [b"MRRRRRRRR\x01\x01", &[b'R'; 257][..]].concat()
}

/// A block of a variable that is all `R` behind its letter.
const VARIABLE: &[u8] = b"VRRRRRRRRRRRR";

/// Holds the table of a trace to what its records say of registers, with the end mark and without it.
fn holds(reader: &Reader, lines: &[u8], frames: &[&[u8]], told: &[Told]) {
    assert_eq!(frames.len(), told.len());
    for settings in ALL {
        let file = with_frames(settings, lines, frames);
        for mark in [&b""[..], b"\0\0\0\0"] {
            let file = [&file[..], mark].concat();
            written(reader, settings, &file, &rows(lines, frames, told));
            assert!(all_agree(reader, settings, &file), "{file:02x?}");
            not_written(reader, settings, &file, told.len());
        }
    }
}

/// The records of frames that stand one behind the other; each has the number 7 and a head of 6 bytes.
fn rows(lines: &[u8], frames: &[&[u8]], told: &[Told]) -> Vec<Frame> {
    let mut end = b"\x7fTRACE0\n\n".len() + lines.len();
    let row = |(data, &(has_registers, registers_place)): (&&[u8], &Told)| {
        let place = end + 6;
        end = place + data.len();
        Frame { tracepoint: 7, has_registers, place, size: data.len(), registers_place }
    };
    frames.iter().zip(told).map(row).collect()
}

/// One record for each frame, and those beyond as they were.
fn written(reader: &Reader, settings: Settings, file: &[u8], rows: &[Frame]) {
    for spare in [0, 2] {
        let mut records = vec![LENT; rows.len() + spare];
        let answer = (reader.frame_table)(settings, file, &mut records);
        assert_eq!(answer, Count { refusal: 0, count: rows.len() });
        let (given, beyond) = records.split_at(rows.len());
        assert_eq!(given.iter().map(fields).collect::<Vec<_>>(), rows);
        assert_eq!(beyond, vec![LENT; spare]);
    }
}

/// 11 for every number of records that is too low, and every one of them as it was.
fn not_written(reader: &Reader, settings: Settings, file: &[u8], count: usize) {
    for room in 0..count {
        let mut records = vec![LENT; room];
        assert_eq!((reader.frame_table)(settings, file, &mut records), Count { refusal: 11, count: 0 });
        assert_eq!(records, vec![LENT; room]);
    }
}

/// Registers first, last and between; the opening has 13 bytes.
fn places(reader: &Reader) {
    let (letters, own) = (&letters()[..], &b"R\xAA\xBB"[..]);
    for (blocks, place) in [
        (&[own][..], 20),
        (&[own, letters], 20),
        (&[own, VARIABLE], 20),
        (&[letters, own], 288),
        (&[VARIABLE, own], 33),
        (&[letters, own, letters], 288),
        (&[letters, VARIABLE, own, VARIABLE, letters], 301),
        (&[letters, letters, b"RRR", letters], 556),
    ] {
        holds(reader, b"R 2\n", &[&blocks.concat()], &[(1, place)]);
    }
    holds(reader, b"tp R \nR 2\nR8\n", &[own], &[(1, 29)]);
}

/// A block without bytes is there, with the place behind its letter: that may be the file's length.
fn size_0(reader: &Reader) {
    let letters = &letters()[..];
    holds(reader, b"R 0\n", &[b"R"], &[(1, 20)]);
    holds(reader, b"R 0\n", &[&[letters, b"R"].concat()], &[(1, 288)]);
    for settings in ALL {
        assert_eq!(with_frames(settings, b"R 0\n", &[b"R"]).len(), 20);
        assert_eq!(with_frames(settings, b"R 0\n", &[&[letters, b"R"].concat()]).len(), 288);
    }
    holds(reader, b"R 0\n", &[&[b"R", letters].concat()], &[(1, 20)]);
    holds(reader, b"R 0\n", &[&[letters, b"R", letters].concat()], &[(1, 288)]);
    holds(reader, b"R 0\n", &[letters, b"R", b"", VARIABLE], &[NONE, (1, 294), NONE, NONE]);
}

/// With an R line, without one, and without data or frames.
fn no_block(reader: &Reader) {
    let letters = &letters()[..];
    for lines in [&b"R 2\n"[..], b"R 0\n", b"", b"R8\n"] {
        holds(reader, lines, &[letters], &[NONE]);
        holds(reader, lines, &[&[VARIABLE, letters, letters].concat()], &[NONE]);
        holds(reader, lines, &[b""], &[NONE]);
        holds(reader, lines, &[b"", letters, VARIABLE, b""], &[NONE; 4]);
        holds(reader, lines, &[], &[]);
    }
}

/// A frame without registers says no and 0, whatever stands before it and behind it.
fn several_frames(reader: &Reader) {
    let (letters, own) = (&letters()[..], &b"R\xAA\xBB"[..]);
    let last = [letters, own].concat();
    holds(reader, b"R 2\n", &[own, b"", own], &[(1, 20), NONE, (1, 35)]);
    holds(reader, b"R 2\n", &[own, letters, b"", &last, b""], &[(1, 20), NONE, NONE, (1, 577), NONE]);
    holds(reader, b"R 2\n", &[b"", own, own, VARIABLE, own], &[NONE, (1, 26), (1, 35), NONE, (1, 63)]);
    holds(reader, b"R 2\n", &[&last, &last], &[(1, 288), (1, 565)]);
}
