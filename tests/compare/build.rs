//! Links the two archives that `rt lib` writes, and links again when one of
//! them changes.

use std::path::Path;

fn main() {
    let package = std::env::var("CARGO_MANIFEST_DIR").expect("cargo names the package's folder");
    for name in ["panel", "console"] {
        let folder = Path::new(&package).join("../../crates").join(name).join("out");
        println!("cargo:rustc-link-search=native={}", folder.display());
        println!("cargo:rustc-link-lib=static={name}");
        println!("cargo:rerun-if-changed={}", folder.join(format!("lib{name}.a")).display());
    }
}
