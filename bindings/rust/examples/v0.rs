//! Prints v0 of each frame of a little-endian trace, for the board whose register block is 33 general words of 8 bytes and then
//! v0 to v31 of 16 bytes each.
//!
//!     cargo run --release --example v0 -- ../../samples/masks.tf
use std::error::Error;
use std::{env, fs};
use tufakpeni::{Frame, Order, Refusal, Trace};

const BLOCK: usize = 776;
const V0: std::ops::Range<usize> = 264..280;

/// v0 of a frame, as text: its bytes in hexadecimal.
fn v0_of(frame: &Frame) -> Result<String, Refusal> {
    let registers = match frame.registers() {
        Err(Refusal::NotFound) => return Ok("no registers".to_string()),
        answer => answer?,
    };
    if registers.len() != BLOCK {
        return Ok(format!("a register block of {} bytes", registers.len()));
    }
    let digits: Vec<_> = registers[V0].iter().map(|byte| format!("{byte:02x}")).collect();
    Ok(digits.join(" "))
}

fn main() -> Result<(), Box<dyn Error>> {
    let name = env::args().nth(1).ok_or("usage: v0 FILE")?;
    let file = fs::read(name)?;
    for frame in Trace::open(Order::Little, &file)?.frames() {
        println!("frame {}, tracepoint {}: {}", frame.number(), frame.tracepoint(), v0_of(&frame)?);
    }
    Ok(())
}
