//! Links the built library: the archive under the repository's `target/staticlib`.
//!
//! The archive is for x86-64. For another processor it is linked into the bridge instead, a program of
//! its own that runs under an emulator and passes calls on.

use std::path::{Path, PathBuf};
use std::process::Command;

fn main() {
    let package = PathBuf::from(std::env::var("CARGO_MANIFEST_DIR").expect("set by cargo"));
    let folder = package.join("../../target/staticlib");
    let archive = folder.join("librack.a");
    println!("cargo:rerun-if-changed=build.rs");
    println!("cargo:rerun-if-changed={}", archive.display());
    if std::env::var("CARGO_CFG_TARGET_ARCH").as_deref() == Ok("x86_64") {
        println!("cargo:rustc-link-search=native={}", folder.display());
        println!("cargo:rustc-link-lib=static=rack");
    } else {
        build_bridge(&package.join("bridge/bridge.c"), &archive);
    }
}

fn build_bridge(source: &Path, archive: &Path) {
    let bridge = PathBuf::from(std::env::var("OUT_DIR").expect("set by cargo")).join("bridge");
    let status = Command::new("clang")
        .args([
            "--target=x86_64-unknown-linux-gnu",
            "-O2",
            "-Wall",
            "-Wextra",
            "-Werror",
        ])
        .args(["-ffreestanding", "-fno-builtin", "-fno-stack-protector"])
        .args(["-nostdlib", "-static", "-fuse-ld=lld", "-o"])
        .args([&bridge, source, archive])
        .status()
        .expect("clang is there");
    assert!(status.success(), "the bridge is not built");
    println!("cargo:rerun-if-changed={}", source.display());
    println!("cargo:rustc-env=PEER_BRIDGE={}", bridge.display());
}
