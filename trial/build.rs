//! Links the archive of the proved library.

use std::env;
use std::path::PathBuf;
use std::process::exit;

fn main() {
    let dir = env::var("M7700_ARCHIVE_DIR").unwrap_or("../target/staticlib".into());
    // Relative to this package: the linker may stand elsewhere.
    let dir = PathBuf::from(env!("CARGO_MANIFEST_DIR")).join(dir);
    let archive = dir.join("libloader.a");
    println!("cargo:rerun-if-env-changed=M7700_ARCHIVE_DIR");
    println!("cargo:rerun-if-changed={}", archive.display());
    if !archive.is_file() {
        let shown = archive.display();
        eprintln!("no {shown}: run ../archive, or set M7700_ARCHIVE_DIR");
        exit(1);
    }
    println!("cargo:rustc-link-search=native={}", dir.display());
    println!("cargo:rustc-link-lib=static=loader");
}
