// Links target/staticlib/libinterface.a, which `tools/build interface` makes; ULTIMATTT_LIB names another folder.
use std::path::PathBuf;

fn main() {
    let here = PathBuf::from(std::env::var("CARGO_MANIFEST_DIR").unwrap());
    let made = here.join("../../target/staticlib");
    let folder = std::env::var("ULTIMATTT_LIB").map(PathBuf::from).unwrap_or(made);
    let archive = folder.join("libinterface.a");
    if !archive.exists() {
        panic!("{} is missing: run `tools/build interface`", archive.display());
    }
    println!("cargo:rerun-if-changed={}", archive.display());
    println!("cargo:rerun-if-env-changed=ULTIMATTT_LIB");
    println!("cargo:rustc-link-search=native={}", folder.display());
    println!("cargo:rustc-link-lib=static=interface");
}
