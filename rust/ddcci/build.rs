//! Links the proved static libraries, which `tools/build ddcci` and `tools/build ddcci_display` write to
//! `target/staticlib/`.
use std::path::Path;

fn main() {
    let root = std::env::var("CARGO_MANIFEST_DIR").expect("cargo sets CARGO_MANIFEST_DIR");
    let folder = Path::new(&root).join("../../target/staticlib");
    println!("cargo:rustc-link-search=native={}", folder.display());
    for name in ["ddcci", "ddcci_display"] {
        let archive = folder.join(format!("lib{name}.a"));
        if !archive.exists() {
            println!(
                "cargo:warning={} is missing: run `tools/build {name}` in the repository first",
                archive.display()
            );
        }
        println!("cargo:rustc-link-lib=static={name}");
        println!("cargo:rerun-if-changed={}", archive.display());
    }
}
