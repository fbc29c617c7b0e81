//! Links libwallathi.a from the folder WALLATHI_LIB, by default the one that `host/archive` writes to.

use std::env;
use std::path::PathBuf;

fn main() {
    let here = PathBuf::from(env::var_os("CARGO_MANIFEST_DIR").expect("cargo sets it"));
    let folder = env::var_os("WALLATHI_LIB").map_or(here.join("../../target/staticlib"), PathBuf::from);
    let archive = folder.join("libwallathi.a");
    println!("cargo:rerun-if-env-changed=WALLATHI_LIB");
    println!("cargo:rerun-if-changed={}", archive.display());
    let advice =
        "run `host/archive wallathi` at the top of the repository, or set WALLATHI_LIB to its folder";
    assert!(archive.is_file(), "{} is missing: {advice}", archive.display());
    println!("cargo:rustc-link-search=native={}", folder.display());
    println!("cargo:rustc-link-lib=static=wallathi");
}
