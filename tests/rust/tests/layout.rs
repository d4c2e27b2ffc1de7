//! The structs of `src/c.rs` are those of the header.
use tufakpeni_tests::c::*;

#[path = "../../interface/layout.rs"]
mod layout;
