//! Finds the folder with the five files of the source, for the build scripts of the two crates that include them.

use std::path::{Path, PathBuf};

const DEFAULT: &str = "../shared/docs/src";

/// Hands the folder on to `env!("OLA_SOURCE")` and has the crate built again when one of `files` changes.
pub fn announce(files: &[&str]) {
    println!("cargo:rerun-if-env-changed=OLA_SOURCE");
    let folder = folder();
    let (there, missing): (Vec<PathBuf>, Vec<PathBuf>) = files
        .iter()
        .map(|file| folder.join(file))
        .partition(|path| path.is_file());
    for path in &missing {
        println!(
            "cargo::error={} is missing: set OLA_SOURCE to the folder that holds executor/ and core/ of the source",
            path.display()
        );
    }
    if !missing.is_empty() {
        return;
    }
    for path in there {
        println!("cargo:rerun-if-changed={}", path.display());
    }
    let folder = folder.canonicalize().expect("it holds the files");
    println!("cargo:rustc-env=OLA_SOURCE={}", folder.display());
}

/// A relative folder counts from the repository's root.
fn folder() -> PathBuf {
    let root = Path::new(env!("CARGO_MANIFEST_DIR")).join("../../..");
    let given = std::env::var("OLA_SOURCE").unwrap_or_default();
    root.join(if given.is_empty() { DEFAULT } else { &given })
}
