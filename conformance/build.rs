//! Links the proved library, which ./rehearse and .ci/run put into target/staticlib.

use std::path::Path;

fn main() {
    let folder = Path::new(env!("CARGO_MANIFEST_DIR")).join("../target/staticlib");
    let archive = folder.join("librehearsal.a");
    println!("cargo:rerun-if-changed={}", archive.display());
    assert!(archive.exists(), "no proved library: run ./rehearse first");
    println!("cargo:rustc-link-search=native={}", folder.display());
    println!("cargo:rustc-link-lib=static=rehearsal");
}
