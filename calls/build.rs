//! Links the proved code: the static library that `bash samples/library`
//! builds. It is for x86-64 only.

use std::path::Path;

fn main() {
    let root = std::env::var("CARGO_MANIFEST_DIR").expect("cargo names the package's folder");
    let folder = Path::new(&root).join("../target/staticlib");
    let library = folder.join("libexported.a");
    println!("cargo:rerun-if-changed={}", library.display());
    if !library.exists() {
        println!(
            "cargo:warning=target/staticlib/libexported.a is missing: run 'bash samples/library'"
        );
    }
    println!("cargo:rustc-link-search=native={}", folder.display());
    println!("cargo:rustc-link-lib=static=exported");
}
