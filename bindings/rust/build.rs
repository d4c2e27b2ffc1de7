//! Links the library's static archive, which `rt lib --cpu=x86-64` makes in crates/trace_c.
//! `TUFAKPENI_ARCHIVE` names another one, by its whole path.
use std::env;
use std::path::{Path, PathBuf};

fn archive() -> PathBuf {
    match env::var_os("TUFAKPENI_ARCHIVE") {
        Some(path) => PathBuf::from(path),
        None => Path::new(env!("CARGO_MANIFEST_DIR")).join("../../crates/trace_c/out/libtrace_c.a"),
    }
}

fn main() {
    println!("cargo:rerun-if-env-changed=TUFAKPENI_ARCHIVE");
    let archive = archive();
    println!("cargo:rerun-if-changed={}", archive.display());
    let found = archive
        .canonicalize()
        .unwrap_or_else(|e| panic!("{}: {e}; make it by `rt lib --cpu=x86-64` in crates/trace_c", archive.display()));
    let name = found.file_name().expect("a file has a name").to_string_lossy();
    let folder = found.parent().expect("a file stands in a folder");
    println!("cargo:rustc-link-search=native={}", folder.display());
    println!("cargo:rustc-link-lib=static:+verbatim={name}");
}
