//! Links the archive: from the folder that CUGBEJIN_LIB names, or from where `rt lib` in crates/cugbejin_c writes it in this repository.
use std::env;
use std::path::PathBuf;

fn main() {
    let own = PathBuf::from(env::var_os("CARGO_MANIFEST_DIR").unwrap_or_default()).join("../../crates/cugbejin_c/out");
    let folder = env::var_os("CUGBEJIN_LIB").map_or(own, PathBuf::from);
    println!("cargo::rerun-if-env-changed=CUGBEJIN_LIB");
    println!("cargo::rerun-if-changed={}", folder.join("libcugbejin_c.a").display());
    println!("cargo::rustc-link-search=native={}", folder.display());
    println!("cargo::rustc-link-lib=static=cugbejin_c");
}
