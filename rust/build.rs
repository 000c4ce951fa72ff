//! Says where the archive is: `crates/chthonyra/out` of the repository, or the folder that CHTHONYRA_LIB names.
use std::env;
use std::path::PathBuf;

fn main() {
    println!("cargo:rerun-if-env-changed=CHTHONYRA_LIB");
    let beside = PathBuf::from(env::var("CARGO_MANIFEST_DIR").unwrap_or_default()).join("../crates/chthonyra/out");
    let folder = env::var_os("CHTHONYRA_LIB").map_or(beside, PathBuf::from);
    println!("cargo:rerun-if-changed={}", folder.join("libchthonyra.a").display());
    println!("cargo:rustc-link-search=native={}", folder.display());
    println!("cargo:rustc-link-lib=static=chthonyra");
}
