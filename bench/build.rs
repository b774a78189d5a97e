//! Links the built library: the archive under the repository's `target/staticlib`, which is for x86-64.

use std::path::PathBuf;

fn main() {
    let package = PathBuf::from(std::env::var("CARGO_MANIFEST_DIR").expect("set by cargo"));
    let folder = package.join("../target/staticlib");
    let here = std::env::var("CARGO_CFG_TARGET_ARCH");
    assert_eq!(here.as_deref(), Ok("x86_64"), "the archive is for x86-64");
    println!("cargo:rerun-if-changed=build.rs");
    println!(
        "cargo:rerun-if-changed={}",
        folder.join("librack.a").display()
    );
    println!("cargo:rustc-link-search=native={}", folder.display());
    println!("cargo:rustc-link-lib=static=rack");
}
