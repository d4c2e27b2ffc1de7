//! The opening of a GDB trace: its head and its description.
use crate::blocks::Manner;
use crate::lines::{Line, Lines};
use crate::{raw, Refusal, Settings};

/// What every GDB trace starts with.
pub(crate) const HEAD: &[u8] = b"\x7fTRACE0\n";

/// The head and the description, with the empty line that closes it, of a file whose opening the library has let through.
#[derive(Clone, Copy, Debug)]
pub(crate) struct Opening<'a> {
    settings: Settings,
    pub bytes: &'a [u8],
}

impl<'a> Opening<'a> {
    /// That of a file: up to its first empty line. The head ends as a line does.
    pub fn of(settings: Settings, file: &'a [u8]) -> Opening<'a> {
        let description = file[HEAD.len() - 1..].windows(2).position(|two| two == b"\n\n");
        let closing = HEAD.len() + description.expect("the library has found the empty line");
        Opening { settings, bytes: &file[..closing + 1] }
    }

    /// The lines of the description, without the closing empty line.
    pub fn lines(&self) -> Lines<'a> {
        Lines::new(self.settings, self.bytes, HEAD.len()..self.bytes.len() - 1)
    }

    /// Line j of the description. The opening alone is a trace, so that the library is asked there.
    pub fn line(&self, j: usize) -> Result<Line<'a>, Refusal> {
        let line = raw::line_place(self.settings, self.bytes, j)?;
        Ok(Line::new(&line, line.place, self.bytes))
    }

    /// How the blocks of the trace's frames are read.
    pub fn manner(&self) -> Manner<'a> {
        Manner::new(self.settings, self.register_line())
    }

    /// The R line with its end; empty where there is none. Asking the library for the lines would cost more than the frame does, and it
    /// has let them through: one of them at most starts so.
    fn register_line(&self) -> &'a [u8] {
        let mut lines = self.bytes.split_inclusive(|&byte| byte == b'\n');
        lines.find(|line| line.starts_with(b"R ")).unwrap_or_default()
    }
}
