//! Where the original's files are. Shared by the build scripts of the three crates that compile them.

use std::ffi::OsString;
use std::path::{Path, PathBuf};
use std::{env, fs};

/// The folder with `common/`, `mos6502/` and `nes/`: named by `POTATIS`, or beside the repository. A relative one counts
/// from the folder where cargo is started, which `PWD` still names; empty is as unset.
fn sources() -> PathBuf {
    println!("cargo:rerun-if-env-changed=POTATIS");
    let named = env::var_os("POTATIS").filter(|folder| !folder.is_empty());
    let folder = named.map_or_else(beside_the_repository, full_path);
    folder.canonicalize().unwrap_or_else(|error| {
        panic!("the original Rust is not at {}: {error} (name its folder in POTATIS)", folder.display())
    })
}

fn full_path(named: OsString) -> PathBuf {
    let named = PathBuf::from(named);
    if named.is_absolute() {
        return named;
    }
    println!("cargo:rerun-if-env-changed=PWD");
    PathBuf::from(env::var_os("PWD").expect("PWD names the folder where cargo was started")).join(named)
}

fn beside_the_repository() -> PathBuf {
    let crate_folder = PathBuf::from(env::var_os("CARGO_MANIFEST_DIR").expect("cargo names the crate's folder"));
    crate_folder.join("../../../../shared/docs/src")
}

/// A line that declares a module whose text is the original file, unchanged.
pub fn module(visibility: &str, name: &str, file: &str) -> String {
    let path = sources().join(file);
    assert!(path.is_file(), "the original's file {file} is not at {}", path.display());
    watch(&path);
    format!("#[path = {:?}]\n{visibility} mod {name};\n", path.display().to_string())
}

fn watch(file: &Path) {
    let folder = file.parent().expect("a file has a folder");
    println!("cargo:rerun-if-changed={}", folder.display());
}

/// Writes what `src/lib.rs` includes.
pub fn write_root(text: &str) {
    let root = PathBuf::from(env::var_os("OUT_DIR").expect("cargo names the output folder")).join("root.rs");
    fs::write(&root, text).unwrap_or_else(|error| panic!("cannot write {}: {error}", root.display()));
}
