//! The library's speed beside that of the second reader in plain Rust, in one process and on the same bytes, that of one frame by its
//! number, and that of the registers through the Rust wrapper. Prints a table of each.
//!
//!     bench [ROUNDS] [dat] [frame] [registers]
//!
//! With `dat` only that over trace.dat files, with `frame` only that of one frame, with `registers` only the wrapper's; with several just these.
mod dat;
mod files;
mod frame;
mod gdb;
mod question;
mod registers;
mod table;
mod timing;

use std::env;

const ROUNDS: usize = 11;

fn main() {
    let mut rounds = ROUNDS;
    let mut chosen: Vec<fn(usize)> = Vec::new();
    for word in env::args().skip(1) {
        match &word[..] {
            "dat" => chosen.push(headers),
            "frame" => chosen.push(frame::run),
            "registers" => chosen.push(registers::run),
            number => rounds = number.parse().expect("ROUNDS is a number"),
        }
    }
    if chosen.is_empty() {
        chosen = vec![readers, frame::run, registers::run];
    }
    chosen.into_iter().for_each(|run| run(rounds));
}

/// The library beside plain Rust.
fn readers(rounds: usize) {
    print_start(rounds);
    gdb::run(rounds);
    dat::run(rounds);
    println!();
}

/// The same over trace.dat files alone.
fn headers(rounds: usize) {
    print_start(rounds);
    dat::run(rounds);
    println!();
}

fn print_start(rounds: usize) {
    println!("Each time is the least of {rounds} rounds, in which the library, plain Rust and the copy run in turn; the median is that of");
    println!("the rounds' own ratios. Every buffer was written before, and every answer compared. A ratio above its goal is bold.\n");
    table::print_head();
}
