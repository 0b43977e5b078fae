//! Takes the original from docs/src and makes crates of it in OUT_DIR: untouched, doc01
//! (document 01's score and gradient length), each of the two replacements alone, and a counted
//! copy of each of the four.
mod count;
mod text;
mod tree;

use std::path::{Path, PathBuf};
use std::process::Command;

fn root() -> PathBuf {
    let manifest = PathBuf::from(std::env::var("CARGO_MANIFEST_DIR").unwrap());
    manifest.join("../..")
}

/// The folder docs/src: DOCS_SRC, absolute or from the repository's root, or the default.
fn docs_src() -> PathBuf {
    println!("cargo:rerun-if-env-changed=DOCS_SRC");
    match std::env::var("DOCS_SRC") {
        Ok(path) => root().join(path),
        Err(_) => root().join("../shared/docs/src"),
    }
}

fn compile(name: &str, folder: &Path, out: &Path) {
    let status = Command::new(std::env::var("RUSTC").unwrap())
        .args(["--crate-type", "rlib", "--edition", "2024", "--cap-lints", "allow"])
        .args(["-C", "opt-level=3", "--cfg", "feature=\"wide-constraints\""])
        .args(["--crate-name", name, "--out-dir"])
        .arg(out)
        .arg(folder.join("lib.rs"))
        .status()
        .expect("rustc runs");
    assert!(status.success(), "the {name} build of the original does not compile");
}

fn link_bridge() {
    println!("cargo:rerun-if-env-changed=EXPORT_DIR");
    if std::env::var("CARGO_FEATURE_BRIDGE").is_err() {
        return;
    }
    let folder = std::env::var("EXPORT_DIR").map_or(root().join("target/staticlib"), PathBuf::from);
    println!("cargo:rustc-link-search=native={}", folder.display());
    for name in ["export", "halmafir"] {
        println!("cargo:rerun-if-changed={}", folder.join(format!("lib{name}.a")).display());
        println!("cargo:rustc-link-lib=static={name}");
    }
}

fn main() {
    println!("cargo:rerun-if-changed=build");
    let out = PathBuf::from(std::env::var("OUT_DIR").unwrap());
    let source = tree::Source::read(&docs_src());
    for (name, replaced, counted) in [
        ("untouched", [false, false], false),
        ("doc01", [true, true], false),
        ("score_only", [true, false], false),
        ("length_only", [false, true], false),
        ("untouched_counted", [false, false], true),
        ("doc01_counted", [true, true], true),
        ("score_only_counted", [true, false], true),
        ("length_only_counted", [false, true], true),
    ] {
        let folder = out.join(name);
        tree::write(&source, &folder, replaced, counted);
        compile(name, &folder, &out);
    }
    println!("cargo:rustc-link-search=crate={}", out.display());
    link_bridge();
}
