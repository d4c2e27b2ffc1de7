//! Document 01's cases, in both byte orders, through this crate's own functions.
mod bases;
mod bytes;
mod dat;
mod edit;
mod find;
mod refusal;
mod registers;
mod table;
mod trace;
