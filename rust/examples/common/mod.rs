//! What the examples share.
#![allow(dead_code)] // each example uses a part

use std::env;
use std::ffi::{OsStr, OsString};
use std::fs::File;
use std::io::{self, Read, Write};
use std::path::Path;

/// What the command line asks for.
pub enum Asked {
    /// To say how the program is used.
    Help,
    /// To look at this file, or at standard input where it is `-`.
    File(OsString),
}

/// Reads a command line of one file or `--help`.
pub fn asked(usage: &str) -> Result<Asked, String> {
    let mut arguments = env::args_os().skip(1);
    let file = match (arguments.next(), arguments.next()) {
        (Some(file), None) => file,
        (None, _) => return Err(format!("no file named; {usage}")),
        _ => return Err(format!("more than one file named; {usage}")),
    };
    match file.to_str() {
        Some("--help" | "-h") => Ok(Asked::Help),
        Some(option) if option.starts_with('-') && option != "-" => Err(format!(
            "there is no option '{option}' (a file of this name is './{option}'); {usage}"
        )),
        _ => Ok(Asked::File(file)),
    }
}

/// How a message names the file.
pub fn name(file: &OsStr) -> String {
    if file == "-" {
        return "standard input".to_string();
    }
    format!("'{}'", Path::new(file).display())
}

/// The file's bytes, or one more than `most` of them where there are more, so that no input is read
/// without end.
pub fn contents(file: &OsStr, most: usize) -> Result<Vec<u8>, String> {
    if file == "-" {
        return all_of(io::stdin().lock(), most);
    }
    let path = Path::new(file);
    if path.is_dir() {
        return Err("is a directory, not a file".to_string());
    }
    let opened = File::open(path).map_err(|error| format!("cannot be read: {error}"))?;
    all_of(opened, most)
}

fn all_of(source: impl Read, most: usize) -> Result<Vec<u8>, String> {
    let mut bytes = Vec::new();
    source
        .take(most as u64 + 1)
        .read_to_end(&mut bytes)
        .map_err(|error| format!("cannot be read: {error}"))?;
    Ok(bytes)
}

/// Writes a text to standard output; where that fails, the caller learns of it.
pub fn print(text: &str) -> Result<(), String> {
    let mut out = io::stdout().lock();
    out.write_all(text.as_bytes())
        .and_then(|()| out.flush())
        .map_err(|error| format!("the text cannot be written: {error}"))
}
