//! Compiles the C controller, and the wire cell and the queue in C, at -O3 with the system's `cc`, for whoever builds with cargo.

use std::path::Path;
use std::process::Command;

fn run(program: &str, arguments: &[&str]) {
    let status = Command::new(program).args(arguments).status();
    assert!(status.map_or(false, |status| status.success()), "{} {:?} failed", program, arguments);
}

fn main() {
    let folder = std::env::var("OUT_DIR").expect("cargo sets OUT_DIR");
    let archive = Path::new(&folder).join("libplain.a");
    for name in ["plain", "wire", "queue"] {
        let source = format!("{}.c", name);
        let object = Path::new(&folder).join(format!("{}.o", name));
        let object = object.to_string_lossy();
        run("cc", &["-std=c99", "-Wall", "-Wextra", "-Wpedantic", "-O3", "-c", &source, "-o", &object]);
        run("ar", &["crs", &archive.to_string_lossy(), &object]);
        println!("cargo:rerun-if-changed={}", source);
    }
    println!("cargo:rustc-link-search=native={}", folder);
    println!("cargo:rustc-link-lib=static=plain");
    println!("cargo:rerun-if-changed=wire.h");
    println!("cargo:rerun-if-changed=queue.h");
}
