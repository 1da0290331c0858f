//! Sets `oracle_present` where the given source was there to be built.

use std::env;
use std::path::Path;

fn main() {
    println!("cargo:rerun-if-env-changed=ORACLE_SRC");
    println!("cargo:rustc-check-cfg=cfg(oracle_present)");
    let source = env::var_os("ORACLE_SRC").unwrap_or_default();
    let given = Path::new(&source).join("crates/quarto-yaml-validation/src");
    if !source.is_empty() && given.is_dir() {
        println!("cargo:rustc-cfg=oracle_present");
    }
}
