//! Where the archives of the monitor are.

fn main() {
    for archive in ["panel", "console"] {
        let folder = format!("{}/../../crates/{archive}/out", env!("CARGO_MANIFEST_DIR"));
        println!("cargo:rustc-link-search=native={folder}");
        println!("cargo:rerun-if-changed={folder}/lib{archive}.a");
    }
}
