//! Links the library's archives if they have been built; without them the program only checks itself.

use std::env;
use std::path::{Path, PathBuf};

fn archive_directory() -> PathBuf {
    match env::var_os("GURANDYO_ARCHIVE_DIR") {
        Some(directory) => PathBuf::from(directory),
        None => Path::new(env!("CARGO_MANIFEST_DIR")).join("../target/staticlib"),
    }
}

/// The archive of one crate, and the condition under which the program calls it.
fn link(directory: &Path, name: &str, condition: &str) {
    println!("cargo:rustc-check-cfg=cfg({condition})");
    if directory.join(format!("lib{name}.a")).is_file() {
        println!("cargo:rustc-cfg={condition}");
        println!("cargo:rustc-link-search=native={}", directory.display());
        println!("cargo:rustc-link-lib=static={name}");
    }
}

fn main() {
    let directory = archive_directory();
    println!("cargo:rerun-if-env-changed=GURANDYO_ARCHIVE_DIR");
    // The directory and not the archives: one that is not there would have all built anew each time.
    println!("cargo:rerun-if-changed={}", directory.display());
    link(&directory, "report", "library");
    link(&directory, "test_scores", "score_library");
    link(&directory, "test_areas", "area_library");
    link(&directory, "test_queue", "queue_library");
}
