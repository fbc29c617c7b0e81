//! Links libwallathi_index.a from the folder WALLATHI_LIB, by default the one that `host/archive` writes to.

use std::env;
use std::path::PathBuf;

fn main() {
    let here = PathBuf::from(env::var_os("CARGO_MANIFEST_DIR").expect("cargo sets it"));
    let folder = match env::var_os("WALLATHI_LIB") {
        Some(folder) => PathBuf::from(folder),
        None => here.join("../../target/staticlib"),
    };
    let archive = folder.join("libwallathi_index.a");
    println!("cargo:rerun-if-env-changed=WALLATHI_LIB");
    println!("cargo:rerun-if-changed={}", archive.display());
    assert!(
        archive.is_file(),
        "{} is missing: run `host/archive wallathi_index` at the top of the repository, or set WALLATHI_LIB to its folder",
        archive.display()
    );
    println!("cargo:rustc-link-search=native={}", folder.display());
    println!("cargo:rustc-link-lib=static=wallathi_index");
}
