//! Tells the program `speed` which compiler it is made by, and the program `differential` which library it links.

use std::env;
use std::fs::File;
use std::process::Command;

fn main() {
    println!("cargo:rerun-if-changed=build.rs");
    let compiler = env::var_os("RUSTC").unwrap_or_else(|| "rustc".into());
    let said = Command::new(compiler).arg("--version").output();
    let version = said.map(|output| String::from_utf8_lossy(&output.stdout).trim().to_string()).unwrap_or_default();
    println!("cargo:rustc-env=COMPILER={version}");
    println!("cargo:rustc-env=LIBRARY={}", library().unwrap_or_else(|| "of unknown hash".to_string()));
}

/// The library as the tables of long runs name it: its processor and the first 16 digits of its SHA-256.
fn library() -> Option<String> {
    let archive = env::var("DEP_BIEKKARUL_ARCHIVE").ok()?;
    println!("cargo:rerun-if-changed={archive}");
    let said = Command::new("sha256sum").stdin(File::open(archive).ok()?).output().ok()?;
    let sum = String::from_utf8(said.stdout).ok()?;
    Some(format!("{} {}", env::var("CARGO_CFG_TARGET_ARCH").ok()?, sum.get(..16)?))
}
