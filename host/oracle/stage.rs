//! Build script of both given crates: lays the given files, unchanged, beside
//! the stand-ins for what is absent, in the build's own output folder.
//!
//! The folder of the given source is `ORACLE_SRC`. Where it is missing the
//! crate is built empty and `oracle_present` is not set.

use std::path::{Path, PathBuf};
use std::{env, fs, io};

fn main() -> io::Result<()> {
    println!("cargo:rerun-if-env-changed=ORACLE_SRC");
    println!("cargo:rerun-if-changed=absent");
    println!("cargo:rustc-check-cfg=cfg(oracle_present)");
    let package = env::var("CARGO_PKG_NAME").expect("cargo names the package");
    let out = PathBuf::from(env::var("OUT_DIR").expect("cargo names the output folder"));
    let Some(given) = given_folder(&package) else {
        return Ok(());
    };
    println!("cargo:rerun-if-changed={}", given.display());
    let stage = out.join("given");
    let _ = fs::remove_dir_all(&stage);
    copy_folder(Path::new("absent"), &stage)?;
    copy_folder(&given, &stage)?;
    let root = fs::read_to_string(stage.join("root.txt"))?;
    let root = root.replace("{STAGE}", &stage.display().to_string());
    fs::write(out.join("root.rs"), root)?;
    println!("cargo:rustc-cfg=oracle_present");
    Ok(())
}

/// The folder of the given source of this package, where there is one.
fn given_folder(package: &str) -> Option<PathBuf> {
    let source = env::var_os("ORACLE_SRC").filter(|source| !source.is_empty())?;
    let folder = Path::new(&source).join("crates").join(package).join("src");
    folder.is_dir().then_some(folder)
}

fn copy_folder(from: &Path, to: &Path) -> io::Result<()> {
    fs::create_dir_all(to)?;
    for entry in fs::read_dir(from)? {
        let entry = entry?;
        let target = to.join(entry.file_name());
        if entry.file_type()?.is_dir() {
            copy_folder(&entry.path(), &target)?;
        } else {
            fs::write(&target, fs::read(entry.path())?)?;
        }
    }
    Ok(())
}
