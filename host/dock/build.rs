//! Tells cargo where the proved library is: where DOCK_ARCHIVE says; or in a folder as it is handed over, `../lib`; or in
//! a repository where `host/run library` and `host/run firmware` leave it.

use std::path::{Path, PathBuf};

/// The folder's name for the processor that is built for.
fn processor(target: &str) -> &'static str {
    match target.split('-').next() {
        Some("thumbv7m") => "cortex-m3",
        Some("thumbv6m") => "cortex-m0",
        Some(name) if name.starts_with("riscv32") => "riscv32",
        _ => "x86_64",
    }
}

fn archive(target: &str) -> PathBuf {
    if let Some(named) = std::env::var_os("DOCK_ARCHIVE") {
        return PathBuf::from(named);
    }
    let here = Path::new(env!("CARGO_MANIFEST_DIR"));
    let handed = here.join("../lib").join(processor(target)).join("libdock.a");
    let built = here.join("../../target");
    match processor(target) {
        _ if handed.exists() => handed,
        "x86_64" => built.join("library/libdock.a"),
        name => built.join("firmware").join(name).join("libdock.a"),
    }
}

fn main() {
    let archive = archive(&std::env::var("TARGET").expect("cargo sets TARGET"));
    // The linker is given a folder and finds the archive there by its name, so another name would link another file.
    assert!(archive.ends_with("libdock.a"), "{} is not called libdock.a", archive.display());
    let folder = archive.parent().expect("an archive stands in a folder");
    println!("cargo:rustc-link-search=native={}", folder.display());
    println!("cargo:rustc-link-lib=static=dock");
    println!("cargo:rerun-if-changed={}", archive.display());
    println!("cargo:rerun-if-env-changed=DOCK_ARCHIVE");
}
