// Links the proved static library, which `rt lib` in crates/exports builds.
use std::path::PathBuf;

// Says where the static library is, and when to link it again.
fn main() {
    let folder = PathBuf::from(std::env::var("CARGO_MANIFEST_DIR").unwrap()).join("../../crates/exports/out");
    let file = folder.join("libexports.a");
    assert!(file.exists(), "no static library: run `rt lib` in crates/exports");
    println!("cargo:rustc-link-search=native={}", folder.display());
    println!("cargo:rustc-link-lib=static=exports");
    println!("cargo:rerun-if-changed={}", file.display());
}
