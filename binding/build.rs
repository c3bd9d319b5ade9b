//! Links `target/staticlib/libcerambiu.a`, which `.ci/build` writes.

fn main() {
    let folder = std::env::var("CARGO_MANIFEST_DIR").expect("cargo sets it") + "/../target/staticlib";
    println!("cargo:rustc-link-search=native={folder}");
    println!("cargo:rustc-link-lib=static=cerambiu");
    println!("cargo:rerun-if-changed={folder}/libcerambiu.a");
}
