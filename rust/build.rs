// Links the proved code, the static library that `rt lib` leaves in crates/exports/out, where it has been built; without it only
// `compare` is less.
use std::path::PathBuf;

fn main() {
    let root = PathBuf::from(std::env::var("CARGO_MANIFEST_DIR").unwrap());
    let folder = root.join("../crates/exports/out");
    let archive = folder.join("libexports.a");
    println!("cargo:rustc-check-cfg=cfg(proved)");
    println!("cargo:rerun-if-changed={}", archive.display());
    if archive.is_file() {
        println!("cargo:rustc-cfg=proved");
        println!("cargo:rustc-link-search=native={}", folder.display());
        println!("cargo:rustc-link-lib=static=exports");
    }
}
