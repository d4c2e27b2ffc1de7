//! A run over many made files: its seed and length, its counts, and what it tells of a difference.

use crate::compare::{Comparer, Difference, Met};
use std::fmt::Write;
use std::path::PathBuf;
use std::{env, fs, process};

/// The gate's seed; any other is given as TUFAKPENI_SEED.
const SEED: u64 = 20_261_115;
/// How many files of both formats are made at random in the gate; any other number is given as TUFAKPENI_FILES.
const FILES: usize = 240_000;
/// A longer file is saved and not printed.
const MOST_PRINTED: usize = 2_048;

fn number(name: &str) -> Option<u64> {
    let text = env::var(name).ok()?;
    Some(text.parse().unwrap_or_else(|_| panic!("{name}={text} is no number")))
}

pub fn seed() -> u64 {
    number("TUFAKPENI_SEED").unwrap_or(SEED)
}

pub fn files() -> usize {
    number("TUFAKPENI_FILES").map_or(FILES, |files| files as usize)
}

/// How many files were compared by how many calls, and how many of them met what.
pub struct Tally {
    name: &'static str,
    seed: u64,
    pub files: usize,
    calls: usize,
    met: [usize; Met::COUNT],
}

impl Tally {
    pub fn new(name: &'static str, seed: u64) -> Self {
        Tally { name, seed, files: 0, calls: 0, met: [0; Met::COUNT] }
    }

    /// Counts a file, or ends the run with all that is needed to see the difference again.
    pub fn count(&mut self, comparer: &mut Comparer, sort: &str, result: Result<(), Difference>, files: &[&[u8]]) {
        if let Err(difference) = result {
            panic!("{}", self.told(sort, &difference, files));
        }
        self.files += 1;
        self.calls += std::mem::take(&mut comparer.calls);
        for met in comparer.take_met() {
            self.met[met.index()] += 1;
        }
    }

    fn told(&self, sort: &str, difference: &Difference, files: &[&[u8]]) -> String {
        let Difference { call, given, second } = difference;
        let mut told = format!("seed {}, {} file {} ({sort}): {call}\n", self.seed, self.name, self.files);
        write!(told, "  given:  {given}\n  second: {second}\n").expect("text");
        for (index, file) in files.iter().enumerate() {
            writeln!(told, "  file {index}, {} bytes: {}", file.len(), shown(index, file)).expect("text");
        }
        told
    }

    /// How many files met this.
    pub fn met(&self, met: Met) -> usize {
        self.met[met.index()]
    }

    /// Prints the counts, and holds each of these to having been met by so many files.
    pub fn finish(&self, least: &[(Met, usize)]) {
        println!(
            "{}: seed {}, {} files, {} calls compared, no difference",
            self.name, self.seed, self.files, self.calls
        );
        let told: Vec<_> =
            Met::all().filter(|&met| self.met(met) > 0).map(|met| format!("{met:?}: {}", self.met(met))).collect();
        println!("{}: files that met each: {}", self.name, told.join(", "));
        for &(met, least) in least {
            let files = self.met(met);
            assert!(files >= least, "{}: {met:?} was met by {files} files only, not by {least}", self.name);
        }
    }
}

/// A file's bytes in hex, or where it was saved.
fn shown(index: usize, file: &[u8]) -> String {
    if file.len() > MOST_PRINTED {
        let path: PathBuf = env::temp_dir().join(format!("tufakpeni-difference-{}-{index}", process::id()));
        return match fs::write(&path, file) {
            Ok(()) => format!("saved as {}", path.display()),
            Err(error) => format!("not saved as {}: {error}", path.display()),
        };
    }
    file.iter().map(|byte| format!("{byte:02x}")).collect()
}
