//! Files that trace-cmd recorded: the library and the second reader agree on them. What trace-cmd itself reads in them
//! is compared in tests/real.

use std::fs;
use tufakpeni_tests::compare::Comparer;
use tufakpeni_tests::library::LIBRARY;

const FOLDER: &str = concat!(env!("CARGO_MANIFEST_DIR"), "/../real/tracedat");
/// How many files there are.
const FILES: usize = 35;

/// The files of an architecture.
fn recorded(architecture: &str) -> Vec<std::path::PathBuf> {
    let entries = fs::read_dir(format!("{FOLDER}/{architecture}")).expect("the folder");
    entries.map(|entry| entry.expect("an entry").path()).collect()
}

#[test]
fn library_and_second_reader_agree() {
    let mut comparer = Comparer::thorough(&LIBRARY);
    let files: Vec<_> = ["amd64", "s390x"].into_iter().flat_map(recorded).collect();
    assert_eq!(files.len(), FILES);
    for path in &files {
        let file = fs::read(path).expect("the file");
        comparer.dat(&file).unwrap_or_else(|difference| panic!("{}: {difference:?}", path.display()));
    }
    println!("trace-cmd's files: {FILES} files, {} calls compared, no difference", comparer.calls);
}
