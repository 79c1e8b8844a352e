//! Links the verified static library: from the folder that `LAMPCYGNET_LIB_DIR` names, where it has its own name or the one
//! that `make install` gives it, else from the repository's own, which `make library` fills.

use std::env;
use std::path::PathBuf;

fn main() {
    println!("cargo:rerun-if-env-changed=LAMPCYGNET_LIB_DIR");
    let folder = match env::var_os("LAMPCYGNET_LIB_DIR") {
        Some(folder) => PathBuf::from(folder),
        None => PathBuf::from(env!("CARGO_MANIFEST_DIR")).join("../../target/staticlib"),
    };
    let library = |name: &str| folder.join(format!("lib{name}.a"));
    let Some(name) = ["lampcygnet", "capi"].into_iter().find(|name| library(name).exists()) else {
        panic!(
            "{} is not there: run `make library` first, or set LAMPCYGNET_LIB_DIR",
            library("capi").display()
        );
    };
    println!("cargo:rerun-if-changed={}", library(name).display());
    println!("cargo:rustc-link-search=native={}", folder.display());
    println!("cargo:rustc-link-lib=static={name}");
}
