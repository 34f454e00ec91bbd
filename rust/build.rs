//! Finds the static library and tells cargo to link it, as `libbiekkarul.a`:
//!
//! 1. `BIEKKARUL_LIB` names a folder: the library in it, be it called `libbiekkarul.a` or, as `lib/make.sh`
//!    keeps what `rt` made, `libexports.a`. A relative name counts from the folder where cargo is started; empty is as unset.
//! 2. `BIEKKARUL_PROVE=1`: the library is made from the repository's sources by `lib/make.sh`, which proves them
//!    and takes minutes. It is made again where the sources, the toolchain or the library have other contents than
//!    when it was made; file times say nothing.
//! 3. Otherwise the one that the repository keeps in `lib/` for this processor. The gate makes it anew and compares.
//!
//! In each case a library of another version or for another processor, or a file that is none, is refused here with
//! a message. Where `DOCS_RS` is set, nothing is linked: pages need no library.

#[path = "build/archive.rs"]
mod archive;

use archive::{Processor, PROCESSORS};
use std::env;
use std::fs::{self, OpenOptions};
use std::io::{BufRead, BufReader, Read, Write};
use std::path::{Path, PathBuf};
use std::process::{exit, Command, Stdio};
use std::thread;

/// `BIEKKARUL_VERSION` of include/biekkarul.h, and `VERSION` in src/ffi.rs.
const VERSION: u32 = 5;
const ARCHIVE: &str = "libbiekkarul.a";
const MADE: &str = "libexports.a";

fn main() {
    if let Err(message) = link() {
        eprintln!("biekkarul: {message}");
        exit(1);
    }
}

fn link() -> Result<(), String> {
    println!("cargo:rerun-if-changed=build.rs");
    println!("cargo:rerun-if-changed=build");
    for name in ["BIEKKARUL_LIB", "BIEKKARUL_PROVE", "DOCS_RS"] {
        println!("cargo:rerun-if-env-changed={name}");
    }
    if env::var_os("DOCS_RS").is_some() {
        return Ok(());
    }
    let processor = processor()?;
    let archive = chosen(processor)?;
    let bytes = contents(&archive)?;
    check_version(&archive, &bytes, processor)?;
    let out = PathBuf::from(variable("OUT_DIR")?);
    write(&out.join(ARCHIVE), &bytes)?;
    println!("cargo:rustc-link-search=native={}", out.display());
    println!("cargo:rustc-link-lib=static=biekkarul");
    // For the build script of a crate that depends on this one: DEP_BIEKKARUL_ARCHIVE.
    println!("cargo:archive={}", out.join(ARCHIVE).display());
    Ok(())
}

/// The one that this build is for. The library is machine code; elsewhere the linker's own message would be a riddle.
fn processor() -> Result<&'static Processor, String> {
    let arch = variable("CARGO_CFG_TARGET_ARCH")?;
    let os = variable("CARGO_CFG_TARGET_OS")?;
    let found = PROCESSORS.iter().find(|one| one.name == arch);
    found.filter(|_| os == "linux").ok_or_else(|| {
        format!(
            "the library is made for {} linux; this build is for {arch} {os}",
            archive::names()
        )
    })
}

/// The folder of a processor's library, in `lib/` and where it is made.
fn folder_of(processor: &Processor) -> String {
    format!("{}-linux", processor.name)
}

fn check_version(archive: &Path, bytes: &[u8], processor: &Processor) -> Result<(), String> {
    match archive::version(bytes, processor) {
        Ok(VERSION) => Ok(()),
        Ok(other) => Err(format!(
            "'{}' is of version {other}, but this wrapper is for version {VERSION}",
            archive.display()
        )),
        Err(why) => Err(format!("'{}' {why}", archive.display())),
    }
}

fn chosen(processor: &Processor) -> Result<PathBuf, String> {
    let named = env::var_os("BIEKKARUL_LIB").filter(|folder| !folder.is_empty());
    match (named, is_to_be_proved()?) {
        (Some(_), true) => Err(
            "BIEKKARUL_LIB names a library, and BIEKKARUL_PROVE=1 asks for one to be made: set one of them"
                .to_string(),
        ),
        (Some(folder), false) => named_library(&full_path(folder.into())?),
        (None, true) => proved_library(&root()?, processor),
        (None, false) => kept_library(&root()?, processor),
    }
}

fn is_to_be_proved() -> Result<bool, String> {
    let said = env::var_os("BIEKKARUL_PROVE").unwrap_or_default();
    match said.to_str() {
        Some("" | "0") => Ok(false),
        Some("1") => Ok(true),
        _ => Err(format!(
            "BIEKKARUL_PROVE is '{}': it may be 1, to prove and make the library, or 0",
            said.to_string_lossy()
        )),
    }
}

/// Cargo runs this in the crate's folder; `PWD` still names the one where cargo was started.
fn full_path(folder: PathBuf) -> Result<PathBuf, String> {
    if folder.is_absolute() {
        return Ok(folder);
    }
    println!("cargo:rerun-if-env-changed=PWD");
    Ok(PathBuf::from(variable("PWD")?).join(folder))
}

/// Looked at in each build: a library that was copied there may have any time.
fn named_library(folder: &Path) -> Result<PathBuf, String> {
    run_each_time();
    let candidates = [folder.join(ARCHIVE), folder.join(MADE)];
    let found = candidates.into_iter().find(|archive| archive.is_file());
    found.ok_or_else(|| {
        let fault = if folder.is_file() {
            "is a file: name the folder that it is in"
        } else if folder.is_dir() {
            "is a folder that has neither libbiekkarul.a nor libexports.a"
        } else {
            "is not there"
        };
        format!("BIEKKARUL_LIB names '{}', which {fault}", folder.display())
    })
}

/// The repository that this crate stands in.
fn root() -> Result<PathBuf, String> {
    let crate_folder = PathBuf::from(variable("CARGO_MANIFEST_DIR")?);
    let root = crate_folder.parent();
    root.map(Path::to_path_buf)
        .ok_or_else(|| "the crate stands in no repository".to_string())
}

/// Cargo goes by file times, so it is told to run this script at each build, by a file that never is there.
fn run_each_time() {
    println!("cargo:rerun-if-changed=build/runs-each-time");
}

/// A file of the repository, which cargo watches as any source.
fn kept_library(root: &Path, processor: &Processor) -> Result<PathBuf, String> {
    let archive = root.join("lib").join(folder_of(processor)).join(ARCHIVE);
    println!("cargo:rerun-if-changed={}", archive.display());
    if archive.is_file() {
        return Ok(archive);
    }
    Err(format!(
        "'{}' is not there: BIEKKARUL_LIB may name the folder that the library is in, and BIEKKARUL_PROVE=1 \
         makes it from the sources",
        archive.display()
    ))
}

/// `lib/make.sh` makes the library for every processor, and nothing where it was made of the same contents.
fn proved_library(root: &Path, processor: &Processor) -> Result<PathBuf, String> {
    run_each_time();
    let made = root.join("target").join("staticlib");
    let archive = made.join(folder_of(processor)).join(ARCHIVE);
    make(root, &archive)?;
    Ok(archive)
}

fn make(root: &Path, archive: &Path) -> Result<(), String> {
    let mut run = Command::new("bash")
        .arg("lib/make.sh")
        .current_dir(root)
        .stdout(Stdio::piped())
        .stderr(Stdio::piped())
        .spawn()
        .map_err(|error| format!("bash cannot be started: {error}"))?;
    let errors = run
        .stderr
        .take()
        .map(|stream| thread::spawn(|| followed(stream)));
    let mut said = run.stdout.take().map(followed).unwrap_or_default();
    said += &errors
        .and_then(|errors| errors.join().ok())
        .unwrap_or_default();
    let status = run
        .wait()
        .map_err(|error| format!("lib/make.sh is lost: {error}"))?;
    if status.success() && archive.is_file() {
        return Ok(());
    }
    Err(format!(
        "'bash lib/make.sh' made no '{}' ({status}) and said:\n{said}",
        archive.display()
    ))
}

/// All that a stream says. The lines of `lib/make.sh` and of `rt`, one for each crate, are shown as they come.
fn followed(stream: impl Read) -> String {
    let mut said = String::new();
    for line in BufReader::new(stream).split(b'\n').map_while(Result::ok) {
        let line = String::from_utf8_lossy(&line);
        let news = ["library: ", "rt: "]
            .iter()
            .find_map(|mark| line.strip_prefix(mark));
        if let Some(news) = news {
            show(news);
        }
        said += &line;
        said.push('\n');
    }
    said
}

/// The start of a line, on the terminal: cargo shows nothing of a build script while it runs, and this one may take
/// minutes. Where there is no terminal, nobody waits at one.
fn show(line: &str) {
    if let Ok(mut terminal) = OpenOptions::new().write(true).open("/dev/tty") {
        let start: String = line.chars().take(100).collect();
        let _ = writeln!(terminal, "\r\x1B[K    biekkarul: {start}");
    }
}

fn contents(file: &Path) -> Result<Vec<u8>, String> {
    fs::read(file).map_err(|error| format!("'{}' cannot be read: {error}", file.display()))
}

fn write(file: &Path, bytes: &[u8]) -> Result<(), String> {
    fs::write(file, bytes)
        .map_err(|error| format!("'{}' cannot be written: {error}", file.display()))
}

fn variable(name: &str) -> Result<String, String> {
    env::var(name).map_err(|error| format!("{name}: {error}"))
}
