//! A second reader of GDB traces and trace.dat headers, and what compares the library with it: made files, the C
//! interface, and the comparison of every call.

pub mod answers;
pub mod c;
pub mod compare;
pub mod letters;
pub mod library;
pub mod make;
pub mod reader;
pub mod run;
pub mod second;
