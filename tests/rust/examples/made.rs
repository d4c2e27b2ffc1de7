//! Writes files to standard output for another program to read: those named, each with so many damaged copies, and then
//! so many made ones of every sort, two traces to be joined or a trace.dat file.
//!
//!     made DAMAGED MADE FILE..
//!
//! A file is written as its length, in four bytes with the low one first, and its bytes.

use std::io::{self, BufWriter, Write};
use tufakpeni_tests::make::damage::{damaged, shortened};
use tufakpeni_tests::make::{any_dat, any_trace, Random};
use tufakpeni_tests::run::seed;

fn write(out: &mut impl Write, file: &[u8]) -> io::Result<()> {
    out.write_all(&(file.len() as u32).to_le_bytes())?;
    out.write_all(file)
}

fn write_damaged(out: &mut impl Write, random: &mut Random, file: &[u8], copies: usize) -> io::Result<()> {
    write(out, file)?;
    for _ in 0..copies {
        let spoil = random.pick(&[damaged, damaged, damaged, shortened]);
        write(out, spoil(random, file.to_vec()).file())?;
    }
    Ok(())
}

fn write_made(out: &mut impl Write, random: &mut Random) -> io::Result<()> {
    if random.one_in(3) {
        return write(out, any_dat(random).file());
    }
    let trace = any_trace(random);
    write(out, trace.made.file())?;
    write(out, &trace.partner)
}

fn main() -> io::Result<()> {
    let mut words = std::env::args().skip(1);
    let mut number = || words.next().and_then(|word| word.parse().ok()).expect("usage: made DAMAGED MADE FILE..");
    let (copies, wanted): (usize, usize) = (number(), number());
    let mut out = BufWriter::new(io::stdout().lock());
    let mut random = Random::new(seed());
    for name in words {
        write_damaged(&mut out, &mut random, &std::fs::read(name)?, copies)?;
    }
    for index in 0..wanted {
        write_made(&mut out, &mut Random::of(seed(), index))?;
    }
    out.flush()
}
