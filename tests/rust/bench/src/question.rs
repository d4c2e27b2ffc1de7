//! A question that both readers answer.
use tufakpeni_tests::answers::SECOND;
use tufakpeni_tests::library::LIBRARY;
use tufakpeni_tests::reader::Reader;

/// Which reader answers.
#[derive(Clone, Copy)]
pub enum Side {
    Library,
    Plain,
}

impl Side {
    pub fn reader(self) -> Reader {
        match self {
            Side::Library => LIBRARY,
            Side::Plain => SECOND,
        }
    }
}

/// A refusal or 0, and what the answer names.
pub type Told = (u8, usize, usize);
