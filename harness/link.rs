// Links target/staticlib/libNAME.a of the repository, which `tools/staticlib NAME` writes. For build scripts.
use std::{env, path::PathBuf};

pub fn staticlib(name: &str) {
    let folder =
        PathBuf::from(env::var("CARGO_MANIFEST_DIR").unwrap()).join("../../target/staticlib");
    let archive = folder.join(format!("lib{name}.a"));
    println!("cargo:rerun-if-changed={}", archive.display());
    println!("cargo:rerun-if-changed=../link.rs");
    if !archive.exists() {
        panic!(
            "target/staticlib/lib{name}.a is missing: run `tools/staticlib {name}` at the repository's top first"
        );
    }
    println!("cargo:rustc-link-search=native={}", folder.display());
    println!("cargo:rustc-link-lib=static={name}");
}
