//! The questions about a trace.dat file.

use super::{ask, indices, Alignment, Comparer, Difference, Met, Overlaps};
use crate::c::DatSummary;
use crate::make::Made;

impl Comparer<'_> {
    pub fn made_dat(&mut self, made: &Made) -> Result<(), Difference> {
        let summary = self.dat(made.file())?;
        self.settled(made.refusal, summary.refusal)
    }

    /// The summary, and every CPU's range.
    pub fn dat(&mut self, file: &[u8]) -> Result<DatSummary, Difference> {
        let summary = ask!(self.dat_read([] file []))?;
        for i in indices(summary.cpu_count as usize, self.most) {
            ask!(self.dat_cpu_range([] file [i]))?;
        }
        if let Some(shown) = Alignment::of_file(file) {
            self.meet(Met::Alignment(shown));
        }
        if let Some(shown) = Overlaps::of_file(file) {
            self.meet(Met::Overlaps(shown));
        }
        Ok(summary)
    }
}
