//! Finds the original's source. It is read in place and never copied here.
use std::{env, path::Path};

fn main() {
    println!("cargo::rerun-if-env-changed=DS_DECOMP_SRC");
    let Ok(source) = env::var("DS_DECOMP_SRC") else {
        println!("cargo::error=set DS_DECOMP_SRC to the folder of ds-decomp's source that holds lib/src/analysis");
        return;
    };
    let analysis = Path::new(&source).join("lib/src/analysis").canonicalize().expect("DS_DECOMP_SRC holds lib/src/analysis");
    println!("cargo::rerun-if-changed={}", analysis.display());
    println!("cargo::rustc-env=ANALYSIS={}", analysis.display());
}
