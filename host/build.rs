// Tells cargo where libwitness.a lies, the archive that `rt lib` makes in crates/witness.
use std::env;
use std::path::Path;
use std::process;

fn main() {
    println!("cargo:rerun-if-env-changed=FRAMEWITNESS_ARCHIVE");
    let top = env::var("CARGO_MANIFEST_DIR").expect("cargo says where this package is");
    let archive = match env::var_os("FRAMEWITNESS_ARCHIVE") {
        Some(folder) => folder.into(),
        None => Path::new(&top).join("../crates/witness/out"),
    };
    let file = archive.join("libwitness.a");
    if !file.is_file() {
        eprintln!(
            "{} is missing: make it by `rt lib` in crates/witness, or say in FRAMEWITNESS_ARCHIVE in which folder it is",
            file.display()
        );
        process::exit(1);
    }
    println!("cargo:rerun-if-changed={}", file.display());
    println!("cargo:rustc-link-search=native={}", archive.display());
    println!("cargo:rustc-link-lib=static=witness");
}
