//! Links the static library that `tools/build bullacetop` makes.

use std::env;
use std::path::{Path, PathBuf};

/// Where the library stands if it is not in the repository's `target/staticlib`.
const FOLDER: &str = "BULLACETOP_LIB_DIR";

fn main() {
    let folder = match env::var_os(FOLDER) {
        Some(folder) => PathBuf::from(folder),
        None => Path::new(env!("CARGO_MANIFEST_DIR")).join("../target/staticlib"),
    };
    let library = folder.join("libbullacetop.a");
    assert!(
        library.exists(),
        "{} is missing: tools/build bullacetop, or set {FOLDER} to its folder",
        library.display()
    );
    println!("cargo:rustc-link-search=native={}", folder.display());
    println!("cargo:rustc-link-lib=static=bullacetop");
    println!("cargo:rerun-if-changed={}", library.display());
    println!("cargo:rerun-if-env-changed={FOLDER}");
}
