//! Compiles the driver with the system's `cc`, for whoever builds with cargo.

use std::path::Path;
use std::process::Command;

fn run(program: &str, arguments: &[&str]) {
    let status = Command::new(program).args(arguments).status();
    assert!(status.map_or(false, |status| status.success()), "{} {:?} failed", program, arguments);
}

fn main() {
    let folder = std::env::var("OUT_DIR").expect("cargo sets OUT_DIR");
    let object = Path::new(&folder).join("driver.o");
    let archive = Path::new(&folder).join("libdriver.a");
    let source = "../c/driver.c";
    run("cc", &["-std=c99", "-O2", "-I", "../include", "-c", source, "-o", &object.to_string_lossy()]);
    run("ar", &["crs", &archive.to_string_lossy(), &object.to_string_lossy()]);
    println!("cargo:rustc-link-search=native={}", folder);
    println!("cargo:rustc-link-lib=static=driver");
    println!("cargo:rerun-if-changed={}", source);
    println!("cargo:rerun-if-changed=../c/driver.h");
}
