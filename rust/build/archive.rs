//! What a static library says of itself, read from its bytes: a library that does not fit then gets a message of
//! ours, and not a riddle of the linker's. Nothing of it is run.

const MAGIC: &[u8] = b"!<arch>\n";
const MEMBER_HEADER: usize = 60;
const SECTION_HEADER: usize = 64;
const SYMBOL: usize = 24;
const SYMBOL_TABLE: u64 = 2;
const NAME: &[u8] = b"biekkarul_version";

/// A processor that the library is made for.
pub struct Processor {
    /// As cargo calls it.
    pub name: &'static str,
    /// As an object file calls it.
    machine: u64,
    /// The number that a function answers whose code does nothing else.
    constant: fn(&[u8]) -> Option<u32>,
}

pub static PROCESSORS: [Processor; 2] = [
    Processor {
        name: "x86_64",
        machine: 62,
        constant: constant_on_x86_64,
    },
    Processor {
        name: "aarch64",
        machine: 183,
        constant: constant_on_aarch64,
    },
];

/// All of them, in words.
pub fn names() -> String {
    let names: Vec<&str> = PROCESSORS.iter().map(|one| one.name).collect();
    names.join(" or ")
}

/// The number that the library's `biekkarul_version` answers, if it is a library for this processor.
pub fn version(bytes: &[u8], wanted: &Processor) -> Result<u32, String> {
    let objects = objects(bytes)?;
    if objects.is_empty() {
        return Err("is an empty archive".to_string());
    }
    for object in &objects {
        check_processor(object, wanted)?;
    }
    let code = objects
        .iter()
        .find_map(|object| code_of_version(object))
        .ok_or("has no function biekkarul_version: it was made before version 1, or is another")?;
    (wanted.constant)(code).ok_or_else(|| "does not say its version as a plain number".to_string())
}

fn check_processor(object: &[u8], wanted: &Processor) -> Result<(), String> {
    match processor_of(object) {
        Some(found) if found.machine == wanted.machine => Ok(()),
        Some(found) => Err(format!(
            "is for {}, but this build is for {}",
            found.name, wanted.name
        )),
        None => Err(format!(
            "holds something else than machine code for {} linux",
            names()
        )),
    }
}

/// The members of an archive, but for its own tables, whose names are `/` and `//`.
fn objects(bytes: &[u8]) -> Result<Vec<&[u8]>, String> {
    let mut rest = bytes.strip_prefix(MAGIC).ok_or("is no archive")?;
    let mut found = Vec::new();
    while !rest.is_empty() {
        let (name, content, after) = member(rest).ok_or("is an archive that is cut off")?;
        if !matches!(name, b"/" | b"//") {
            found.push(content);
        }
        rest = after;
    }
    Ok(found)
}

/// The first member's name and content, and what follows it.
fn member(bytes: &[u8]) -> Option<(&[u8], &[u8], &[u8])> {
    let header = bytes.get(..MEMBER_HEADER)?;
    let size: usize = std::str::from_utf8(&header[48..58])
        .ok()?
        .trim_end()
        .parse()
        .ok()?;
    let end = MEMBER_HEADER.checked_add(size)?;
    let content = bytes.get(MEMBER_HEADER..end)?;
    let name = header[..16].split(|&byte| byte == b' ').next()?;
    let next = (end + size % 2).min(bytes.len());
    Some((name, content, &bytes[next..]))
}

fn processor_of(object: &[u8]) -> Option<&'static Processor> {
    let machine = object
        .strip_prefix(b"\x7FELF\x02\x01")
        .and_then(|_| number(object, 18, 2))?;
    PROCESSORS.iter().find(|one| one.machine == machine)
}

/// The code from the first byte of `biekkarul_version` to the end of its section.
fn code_of_version(object: &[u8]) -> Option<&[u8]> {
    let symbols = sections(object)?
        .into_iter()
        .find(|section| number(section, 4, 4) == Some(SYMBOL_TABLE))?;
    let names = content(object, section(object, number(symbols, 40, 4)?)?)?;
    let symbol = content(object, symbols)?
        .chunks_exact(SYMBOL)
        .find(|symbol| is_named(symbol, names))?;
    let home = section(object, number(symbol, 6, 2)?)?;
    content(object, home)?.get(usize::try_from(number(symbol, 8, 8)?).ok()?..)
}

fn is_named(symbol: &[u8], names: &[u8]) -> bool {
    let at = number(symbol, 0, 4).and_then(|at| usize::try_from(at).ok());
    let name = at.and_then(|at| names.get(at..)).unwrap_or_default();
    name.strip_prefix(NAME)
        .map_or(false, |rest| rest.first() == Some(&0))
}

/// All section headers of an object.
fn sections(object: &[u8]) -> Option<Vec<&[u8]>> {
    (0..number(object, 60, 2)?)
        .map(|index| section(object, index))
        .collect()
}

fn section(object: &[u8], index: u64) -> Option<&[u8]> {
    let first = usize::try_from(number(object, 40, 8)?).ok()?;
    let at = first.checked_add(usize::try_from(index).ok()? * SECTION_HEADER)?;
    object.get(at..at.checked_add(SECTION_HEADER)?)
}

fn content<'a>(object: &'a [u8], section: &[u8]) -> Option<&'a [u8]> {
    let start = usize::try_from(number(section, 24, 8)?).ok()?;
    let size = usize::try_from(number(section, 32, 8)?).ok()?;
    object.get(start..start.checked_add(size)?)
}

/// `mov eax, NUMBER; ret`, which is what a compiler makes of a constant, maybe behind `endbr64`.
fn constant_on_x86_64(code: &[u8]) -> Option<u32> {
    let code = code.strip_prefix(&[0xF3, 0x0F, 0x1E, 0xFA]).unwrap_or(code);
    match *code {
        [0xB8, a, b, c, d, 0xC3, ..] => Some(u32::from_le_bytes([a, b, c, d])),
        _ => None,
    }
}

/// `mov w0, #NUMBER; ret`, with a number of 16 bits, maybe behind `bti c`.
fn constant_on_aarch64(code: &[u8]) -> Option<u32> {
    let code = code.strip_prefix(&[0x5F, 0x24, 0x03, 0xD5]).unwrap_or(code);
    let (mov, ret) = (number(code, 0, 4)?, number(code, 4, 4)?);
    if mov & 0xFFE0_001F != 0x5280_0000 || ret != 0xD65F_03C0 {
        return None;
    }
    u32::try_from(mov >> 5 & 0xFFFF).ok()
}

/// The number of so many bytes at a place, the least first.
fn number(bytes: &[u8], at: usize, size: usize) -> Option<u64> {
    let digits = bytes.get(at..at + size)?;
    Some(
        digits
            .iter()
            .rev()
            .fold(0, |value, &byte| value * 256 + u64::from(byte)),
    )
}
