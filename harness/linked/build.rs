//! Links the product's static library.

fn main() {
    let folder = concat!(env!("CARGO_MANIFEST_DIR"), "/../../target/staticlib");
    let archive = format!("{folder}/libexports.a");
    println!("cargo:rerun-if-changed={archive}");
    if !std::path::Path::new(&archive).exists() {
        panic!("no target/staticlib/libexports.a: first run `rt lib` in crates/exports_c and copy its out/libexports_c.a there");
    }
    println!("cargo:rustc-link-search=native={folder}");
    println!("cargo:rustc-link-lib=static=exports");
}
