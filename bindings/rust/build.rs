//! Links the static library, where the feature `link` asks for it: from the folder in `OLA_LIBRARY`, by default where `rt lib` in crates/ola
//! puts it.

use std::env;
use std::path::Path;

fn main() {
    println!("cargo:rerun-if-changed=build.rs");
    if env::var_os("CARGO_FEATURE_LINK").is_some() {
        link();
    }
}

fn link() {
    println!("cargo:rerun-if-env-changed=OLA_LIBRARY");
    let root = Path::new(env!("CARGO_MANIFEST_DIR"))
        .ancestors()
        .nth(2)
        .expect("the repository is two folders up");
    let folder = match env::var("OLA_LIBRARY") {
        Ok(folder) => root.join(folder),
        Err(_) => root.join("crates/ola/out"),
    };
    let archive = folder.join("libola.a");
    println!("cargo:rerun-if-changed={}", archive.display());
    if !archive.is_file() {
        println!(
            "cargo::error={} is missing: run `rt lib` in crates/ola first, or set OLA_LIBRARY to the folder that has libola.a",
            archive.display()
        );
    }
    println!("cargo:rustc-link-search=native={}", folder.display());
    println!("cargo:rustc-link-lib=static=ola");
}
