//! Links the proved bench, where its static library was made by `rt lib` in `crates/capi`.

use std::path::Path;

fn main() {
    println!("cargo:rustc-check-cfg=cfg(bench)");
    let place = Path::new(env!("CARGO_MANIFEST_DIR")).join("../crates/capi/out");
    println!("cargo:rerun-if-changed={}", place.join("libcapi.a").display());
    if place.join("libcapi.a").exists() {
        println!("cargo:rustc-link-search=native={}", place.display());
        println!("cargo:rustc-link-lib=static=capi");
        println!("cargo:rustc-cfg=bench");
    }
}
