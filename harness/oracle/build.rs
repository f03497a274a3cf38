// Finds the three files: in LOCHKAVE_SOURCES, or in ../shared/docs/src beside the repository. They are compiled as they are. The copy of
// 000 that is compiled ends with src/tail.rs, which hands on what the file keeps to itself. Without the files the crate says so.
use std::{env, fs, path::PathBuf};

const DISTRIBUTION: &str = "src/ensure_requirements/enforce_distribution.rs";
const UTILS: &str = "src/utils.rs";
const OUTPUT: &str = "src/output_requirements.rs";

fn main() {
    let here = PathBuf::from(env::var("CARGO_MANIFEST_DIR").unwrap());
    let out = PathBuf::from(env::var("OUT_DIR").unwrap());
    println!("cargo:rustc-check-cfg=cfg(files)");
    println!("cargo:rerun-if-env-changed=LOCHKAVE_SOURCES");
    println!("cargo:rerun-if-changed=src/tail.rs");
    let folder = match env::var("LOCHKAVE_SOURCES") {
        Ok(folder) => PathBuf::from(folder),
        Err(_) => here.join("../../../shared/docs/src"),
    };
    let files = [DISTRIBUTION, UTILS, OUTPUT].map(|name| folder.join(name));
    for file in &files {
        println!("cargo:rerun-if-changed={}", file.display());
    }
    println!("cargo:rustc-env=DISTRIBUTION={}", files[0].display());
    if !files.iter().all(|file| file.exists()) {
        println!("cargo:warning=the three files are not at hand: the oracle is NOT built");
        return;
    }
    let mut text = fs::read(&files[0]).unwrap();
    text.extend(fs::read(here.join("src/tail.rs")).unwrap());
    let whole = out.join("enforce_distribution.rs");
    fs::write(&whole, text).unwrap();
    let module = |name: &str, path: &PathBuf| {
        let path = fs::canonicalize(path).unwrap();
        format!("#[allow(warnings)]\n#[path = {path:?}]\npub mod {name};\n")
    };
    let modules = [
        module("enforce_distribution", &whole),
        module("utils", &files[1]),
        module("output_requirements", &files[2]),
    ];
    fs::write(out.join("files.rs"), modules.concat()).unwrap();
    println!("cargo:rustc-cfg=files");
}
