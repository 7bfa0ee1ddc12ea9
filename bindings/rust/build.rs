//! Links the library that ./build-library of the repository writes to target/staticlib; SATINJACKS_LIB names another folder.
use std::env;
use std::path::PathBuf;

fn main() {
    println!("cargo:rerun-if-env-changed=SATINJACKS_LIB");
    let set = |name: &str| env::var(name).expect("cargo sets it");
    // `links` of Cargo.toml, the one place where the library has its name
    let name = set("CARGO_MANIFEST_LINKS");
    let folder = match env::var_os("SATINJACKS_LIB") {
        Some(folder) => PathBuf::from(folder),
        None => PathBuf::from(set("CARGO_MANIFEST_DIR")).join("../../target/staticlib"),
    };
    let library = folder.join(format!("lib{name}.a"));
    if !library.exists() {
        panic!("{} isn't there: run ./build-library, or set SATINJACKS_LIB to its folder", library.display());
    }
    println!("cargo:rerun-if-changed={}", library.display());
    println!("cargo:rustc-link-search=native={}", folder.display());
    println!("cargo:rustc-link-lib=static={name}");
}
