//! Links the proved library where the feature `library` asks for it.
//!
//! Its folder is `CHECKER_LIB`, by default `target/staticlib` of the repository.

use std::env;
use std::path::Path;

fn main() {
    println!("cargo:rerun-if-env-changed=CHECKER_LIB");
    if env::var_os("CARGO_FEATURE_LIBRARY").is_none() {
        return;
    }
    let here = env::var("CARGO_MANIFEST_DIR").expect("cargo names the package's folder");
    let default = Path::new(&here).join("../../target/staticlib");
    let folder = env::var_os("CHECKER_LIB").map_or(default, Into::into);
    println!(
        "cargo:rerun-if-changed={}",
        folder.join("libchecker.a").display()
    );
    println!("cargo:rustc-link-search=native={}", folder.display());
    println!("cargo:rustc-link-lib=static=checker");
}
