//! Links the static library that `tools/build bullacetop` makes.

use std::path::Path;

fn main() {
    let folder = Path::new(env!("CARGO_MANIFEST_DIR")).join("../../target/staticlib");
    let library = folder.join("libbullacetop.a");
    assert!(library.exists(), "{} is missing: tools/build bullacetop", library.display());
    println!("cargo:rustc-link-search=native={}", folder.display());
    println!("cargo:rustc-link-lib=static=bullacetop");
    println!("cargo:rerun-if-changed={}", library.display());
    let header = Path::new(env!("CARGO_MANIFEST_DIR")).join("../../include/bullacetop.h");
    println!("cargo:rustc-env=WORKSPACE_BYTES={}", workspace(&header));
    println!("cargo:rerun-if-changed={}", header.display());
    // What `tests/finder` links, and nothing else needs.
    let finder = folder.join("libsearch_finder.a");
    if finder.exists() {
        println!("cargo:rerun-if-changed={}", finder.display());
    }
}

/// The bytes of a workspace, as the header demands them.
fn workspace(header: &Path) -> String {
    let text = std::fs::read_to_string(header).expect("the header can be read");
    let after = text.split("sizeof(struct bullacetop_workspace) == ").nth(1);
    after.expect("the header tells the size").chars().take_while(char::is_ascii_digit).collect()
}
