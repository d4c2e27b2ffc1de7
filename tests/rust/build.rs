//! Links the library's archive: TUFAKPENI_ARCHIVE (an absolute path), or where `rt lib` puts it in crates/trace_c.

use std::env;
use std::path::{Path, PathBuf};

fn main() {
    println!("cargo:rerun-if-env-changed=TUFAKPENI_ARCHIVE");
    let archive = env::var_os("TUFAKPENI_ARCHIVE").map_or_else(built, PathBuf::from);
    let archive = archive.canonicalize().unwrap_or_else(|error| {
        panic!(
            "{}: {error}; make it by `rt lib --cpu=x86-64` in crates/trace_c, or name another in TUFAKPENI_ARCHIVE",
            archive.display()
        )
    });
    println!("cargo:rerun-if-changed={}", archive.display());
    println!("cargo:rustc-link-search=native={}", folder(&archive).display());
    println!("cargo:rustc-link-lib=static:+verbatim={}", name(&archive));
}

fn built() -> PathBuf {
    Path::new(env!("CARGO_MANIFEST_DIR")).join("../../crates/trace_c/out/libtrace_c.a")
}

fn folder(archive: &Path) -> &Path {
    archive.parent().expect("an archive stands in a folder")
}

fn name(archive: &Path) -> &str {
    archive.file_name().and_then(|name| name.to_str()).expect("an archive's name is text")
}
