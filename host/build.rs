//! Finds libservice.a: in the folder that SERVICE_ARCHIVE names, else in the repository's
//! target/staticlib, where `tools/archive` writes it.

use std::path::{Path, PathBuf};

fn main() {
    println!("cargo::rerun-if-env-changed=SERVICE_ARCHIVE");
    let folder = std::env::var_os("SERVICE_ARCHIVE").map_or_else(
        || {
            let repository = Path::new(env!("CARGO_MANIFEST_DIR")).parent();
            repository.expect("host/ stands in the repository").join("target/staticlib")
        },
        PathBuf::from,
    );
    let archive = folder.join("libservice.a");
    println!("cargo::rerun-if-changed={}", archive.display());
    // Documentation is made without the archive, so that its absence is no error here.
    if !archive.is_file() {
        println!(
            "cargo::warning={} is not there: run `tools/archive` in the repository, \
             or name the folder that has libservice.a in SERVICE_ARCHIVE",
            archive.display()
        );
    }
    println!("cargo::rustc-link-search=native={}", folder.display());
    println!("cargo::rustc-link-lib=static=service");
}
