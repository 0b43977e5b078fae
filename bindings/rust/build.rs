//! Links libhalmafir.a, which `bash tools/archive halmafir` makes: from the folder in HALMAFIR_LIB, or
//! from target/staticlib of the repository.
use std::path::PathBuf;

fn main() {
    println!("cargo:rerun-if-env-changed=HALMAFIR_LIB");
    let root = PathBuf::from(std::env::var("CARGO_MANIFEST_DIR").unwrap()).join("../..");
    let folder = match std::env::var("HALMAFIR_LIB") {
        Ok(path) => PathBuf::from(path),
        Err(_) => root.join("target/staticlib"),
    };
    println!("cargo:rerun-if-changed={}", folder.join("libhalmafir.a").display());
    println!("cargo:rustc-link-search=native={}", folder.display());
    println!("cargo:rustc-link-lib=static=halmafir");
}
