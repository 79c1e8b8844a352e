//! Compiles the C baseline into a static archive, with the C compiler named by `CC` or `cc`.

use std::path::PathBuf;
use std::process::Command;

fn run(command: &mut Command) {
    let status = command.status().unwrap_or_else(|error| panic!("{command:?}: {error}"));
    assert!(status.success(), "{command:?} failed");
}

fn main() {
    let out = PathBuf::from(std::env::var("OUT_DIR").unwrap());
    let object = out.join("baseline.o");
    let compiler = std::env::var("CC").unwrap_or_else(|_| "cc".to_string());
    run(Command::new(compiler)
        .args(["-std=c99", "-O3", "-Wall", "-Wextra", "-Wconversion", "-Wno-sign-conversion", "-Werror", "-fPIC"])
        .args(["-c", "baseline.c", "-o"])
        .arg(&object));
    let archive = out.join("libbaseline.a");
    let _ = std::fs::remove_file(&archive);
    run(Command::new("ar").arg("crs").arg(archive).arg(object));
    println!("cargo:rustc-link-search=native={}", out.display());
    println!("cargo:rustc-link-lib=static=baseline");
    println!("cargo:rerun-if-changed=baseline.c");
    println!("cargo:rerun-if-changed=baseline.h");
    println!("cargo:rerun-if-env-changed=CC");
}
