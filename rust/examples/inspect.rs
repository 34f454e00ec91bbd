//! Says in words what a game's image, a trace or a snapshot holds.
//!
//!     cargo run --offline --manifest-path rust/Cargo.toml --example inspect -- FILE
//!
//! Status: 0 a mode takes the image, or the snapshot is whole; 1 neither mode takes it, or the file is no
//! such thing; 2 no file could be read, or the text could not be written.

mod common;

use std::ffi::OsStr;
use std::process::ExitCode;

use biekkarul::trace::{Answer, Event, Run, Trace};
use biekkarul::{image_hash, Board, Digits, Header, Mode, Refusal, Registers};
use biekkarul::{Snapshot, RAM_LENGTH};
use common::{asked, contents, name, print, Asked};

const USAGE: &str = "usage: inspect FILE, where - is standard input";

const HELP: &str = "\
Says in words what a file holds.

usage: inspect FILE
       inspect -         looks at standard input
       inspect --help    shows this

An image:       its header, iNES or NES 2.0, whether house and board mode take it, and why where they do not
A trace:        the same of its image, and the first event to which the modes answer differently
A snapshot:     its mode, how the screens are turned, the registers, and whether MMC3 has locked PRG RAM

status: 0  a mode takes the image, or the snapshot is whole
        1  neither mode takes it, or the file is no such thing
        2  no file could be read, or the text could not be written
";

/// More than the greatest image needs: 50,331,664 bytes, of NES 2.0 in board mode.
const MOST: usize = 67_108_864;

const HEADER_LENGTH: usize = 16;
const SHORTEST_IMAGE: usize = 16_400;
const PRG_BLOCK: usize = 16_384;
const CHR_BLOCK: usize = 8_192;

/// A nibble of byte 9 that stands for another form of the count.
const EXPONENT: u8 = 15;

/// The boards by their mapper numbers.
const BOARDS: [&str; 5] = ["NROM", "MMC1", "UxROM", "CNROM", "MMC3"];

/// What there is to say, and whether all is well.
struct Report {
    text: String,
    status: u8,
}

fn main() -> ExitCode {
    match run() {
        Ok(status) => ExitCode::from(status),
        Err(message) => {
            eprintln!("inspect: {message}");
            ExitCode::from(2)
        }
    }
}

fn run() -> Result<u8, String> {
    let file = match asked(USAGE)? {
        Asked::Help => return print(HELP).map(|()| 0),
        Asked::File(file) => file,
    };
    let report = inspected(&file)?;
    print(&report.text)?;
    Ok(report.status)
}

fn inspected(file: &OsStr) -> Result<Report, String> {
    let name = name(file);
    let bytes = contents(file, MOST).map_err(|why| format!("{name} {why}"))?;
    if bytes.len() > MOST {
        return Err(format!(
            "{name} has more than {MOST} bytes, which no image has"
        ));
    }
    let Report { text, status } = match bytes.first() {
        Some(1) => of_trace(&bytes),
        _ if bytes.starts_with(b"BIEKSNAP") => of_snapshot(&bytes),
        _ => of_image_file(&bytes),
    };
    Ok(Report {
        text: format!("{name} {text}"),
        status,
    })
}

fn of_image_file(bytes: &[u8]) -> Report {
    let what = match Header::read(bytes) {
        Ok(header) if header.is_nes2() => format!("is an NES 2.0 image of {} bytes\n", bytes.len()),
        Ok(_) => format!("is an iNES image of {} bytes\n", bytes.len()),
        Err(_) => "is no iNES image, no trace and no snapshot\n".to_string(),
    };
    let Report { text, status } = of_image(bytes);
    Report {
        text: what + &text,
        status,
    }
}

/// The header, and the verdict in both modes.
fn of_image(image: &[u8]) -> Report {
    let mut text =
        Header::read(image).map_or_else(|_| String::new(), |header| words(&header, image));
    let mut taken = false;
    for mode in Mode::ALL {
        let loaded = Board::load(image, mode);
        taken |= loaded.is_ok();
        text += &format!("{mode} mode: {}\n", verdict(&loaded, image, mode));
    }
    Report {
        text,
        status: u8::from(!taken),
    }
}

fn verdict(loaded: &Result<Board<&[u8]>, Refusal>, image: &[u8], mode: Mode) -> String {
    match loaded {
        Ok(board) => format!("accepted{}", whether_prg_ram(board)),
        Err(refusal) => format!(
            "refused {} ({}): {}",
            refusal.number(),
            refusal.name(),
            cause(*refusal, image, mode)
        ),
    }
}

/// Only NES 2.0 in board mode says whether there is PRG RAM; what iNES has goes without saying.
fn whether_prg_ram(board: &Board<&[u8]>) -> &'static str {
    if !(board.is_nes2() && board.mode() == Mode::Board) {
        return "";
    }
    let shows_prg_ram = matches!(board.registers(), Registers::Mmc1(_) | Registers::Mmc3(_));
    match (board.has_prg_ram(), shows_prg_ram) {
        (true, true) => ", with PRG RAM",
        (true, false) => ", with PRG RAM, which this board does not show",
        (false, true) => ", without PRG RAM: 6000-7FFF reads 0 and ignores writes",
        (false, false) => ", without PRG RAM",
    }
}

/// The header, a line for each thing that it says.
fn words(header: &Header, image: &[u8]) -> String {
    let house = Mode::House;
    let lines = [
        ("mapper", mapper(header, house)),
        ("PRG ROM", blocks(header.prg_count(), PRG_BLOCK)),
        ("CHR ROM", chr_rom(header.chr_count())),
        ("mirroring", header.mirroring().to_string()),
        ("battery", yes_or_no(header.has_battery())),
        ("trainer", yes_or_no(header.has_trainer())),
        ("four screens", yes_or_no(header.has_four_screens())),
        ("NES 2.0 mark", yes_or_no(header.is_nes2())),
        ("data", data(header, image, house)),
        ("hash", format!("{:016X}", image_hash(image))),
    ];
    if header.is_nes2() {
        let ines = format!("  as house mode reads it:\n{}", listed("    ", &lines));
        return ines + &nes2_words(header, image);
    }
    listed("  ", &lines)
}

fn listed(before: &str, lines: &[(&str, String)]) -> String {
    lines
        .iter()
        .map(|(what, is)| format!("{before}{what:<14}{is}\n"))
        .collect()
}

/// What a marked header says in board mode.
fn nes2_words(header: &Header, image: &[u8]) -> String {
    let board = Mode::Board;
    let (prg_form, chr_form) = (header.flags9() & 0x0F, header.flags9() >> 4);
    let lines = [
        ("mapper", mapper(header, board)),
        ("submapper", header.submapper().to_string()),
        (
            "PRG ROM",
            or_exponent(prg_form, blocks(header.prg_count_in(board), PRG_BLOCK)),
        ),
        (
            "CHR ROM",
            or_exponent(chr_form, blocks(header.chr_count_in(board), CHR_BLOCK)),
        ),
        ("PRG RAM", ram(header.flags10())),
        ("CHR RAM", ram(header.flags11())),
        (
            "data",
            match (prg_form, chr_form) {
                (EXPONENT, _) | (_, EXPONENT) => "not counted".to_string(),
                _ => data(header, image, board),
            },
        ),
    ];
    format!("  as board mode reads NES 2.0:\n{}", listed("    ", &lines))
}

fn or_exponent(nibble: u8, count: String) -> String {
    if nibble == EXPONENT {
        return "a count in exponent form".to_string();
    }
    count
}

/// A byte with two shifts: that of plain RAM below, that of RAM with a battery above.
fn ram(shifts: u8) -> String {
    let means = match shifts {
        0x00 => "none".to_string(),
        0x07 => format!("{RAM_LENGTH} bytes"),
        0x70 => format!("{RAM_LENGTH} bytes with a battery"),
        _ => "not taken".to_string(),
    };
    let (plain, battery) = (shifts & 0x0F, shifts >> 4);
    format!("{means} (shift {plain}; of battery RAM {battery})")
}

fn mapper(header: &Header, mode: Mode) -> String {
    let number = header.mapper_in(mode);
    format!("{number} ({})", board_name(number))
}

fn chr_rom(count: u16) -> String {
    match count {
        0 => format!("none, but {CHR_BLOCK} bytes of CHR RAM"),
        count => blocks(count, CHR_BLOCK),
    }
}

fn board_name(mapper: u16) -> &'static str {
    BOARDS
        .get(usize::from(mapper))
        .copied()
        .unwrap_or("not taken")
}

fn blocks(count: u16, size: usize) -> String {
    let noun = if count == 1 { "block" } else { "blocks" };
    format!("{count} {noun} of {size} bytes")
}

fn yes_or_no(is: bool) -> String {
    if is { "yes" } else { "no" }.to_string()
}

/// A trainer, where the header asks for one, stands before the blocks.
fn data(header: &Header, image: &[u8], mode: Mode) -> String {
    let trainer = if header.has_trainer() { 512 } else { 0 };
    let (there, asked) = (
        image.len() - HEADER_LENGTH,
        header.total_size_excluding_header_in(mode) + trainer,
    );
    match there.checked_sub(asked) {
        Some(0) => format!("{asked} bytes, all there"),
        Some(more) => format!("{asked} bytes, all there, and {more} more behind them"),
        None => format!("{asked} bytes, but only {there} are there"),
    }
}

/// The numbers for which a load refuses an image.
fn cause(refusal: Refusal, image: &[u8], mode: Mode) -> String {
    match Header::read(image) {
        _ if refusal == Refusal::ImageNotInes => not_ines(image),
        Ok(header) => cause_in_header(refusal, &header, mode, image.len()),
        Err(_) => refusal.sentence().to_string(),
    }
}

fn not_ines(image: &[u8]) -> String {
    if image.len() < SHORTEST_IMAGE {
        return format!(
            "{} bytes, but an image has at least {SHORTEST_IMAGE}",
            image.len()
        );
    }
    let first: Vec<String> = image[..4]
        .iter()
        .map(|byte| format!("{byte:02X}"))
        .collect();
    format!(
        "bytes 0-3 are {}, but an iNES image begins with 4E 45 53 1A",
        first.join(" ")
    )
}

fn cause_in_header(refusal: Refusal, header: &Header, mode: Mode, length: usize) -> String {
    let (prg, chr) = (header.prg_count_in(mode), header.chr_count_in(mode));
    match refusal {
        Refusal::MapperNotTaken => format!(
            "mapper {}, but only 0 NROM, 1 MMC1, 2 UxROM, 3 CNROM and 4 MMC3 are taken",
            header.mapper_in(mode)
        ),
        Refusal::TrainerOrFourScreen => unwanted_flags(header),
        Refusal::PrgCountNotTaken => {
            let has = if prg == 0 { "at least 1" } else { "1 or 2" };
            format!("PRG count {prg}, but {} has {has}", board_name(header.mapper_in(mode)))
        }
        Refusal::ImageTooShort => format!(
            "{length} bytes, but PRG count {prg} and CHR count {chr} need {HEADER_LENGTH} + {prg} x \
             {PRG_BLOCK} + {chr} x {CHR_BLOCK} = {}",
            HEADER_LENGTH + header.total_size_excluding_header_in(mode)
        ),
        Refusal::CountNoPowerOfTwo => no_powers_of_two(prg, chr, header.is_nes2_in(mode)),
        Refusal::Nes2NotTaken => nes2_faults(header).join("; "),
        other => other.sentence().to_string(),
    }
}

fn unwanted_flags(header: &Header) -> String {
    let asked = match (header.has_trainer(), header.has_four_screens()) {
        (true, true) => "bit 2 asks for a trainer and bit 3 for four screens",
        (true, false) => "bit 2 asks for a trainer",
        _ => "bit 3 asks for four screens",
    };
    format!(
        "byte 6 is {:02X}: {asked}, and neither is taken",
        header.flags6()
    )
}

/// Every condition of refusal 16 that holds.
fn nes2_faults(header: &Header) -> Vec<String> {
    let (byte8, byte9) = (header.flags8(), header.flags9());
    let (byte10, byte11) = (header.flags10(), header.flags11());
    let has_chr_rom = header.chr_count_in(Mode::Board) != 0;
    let is_no_shift = |byte: u8| ![0x00, 0x07, 0x70].contains(&byte);
    let conditions = [
        (
            header.submapper() != 0,
            format!(
                "byte 8 is {byte8:02X}: submapper {}, but only 0 is taken",
                header.submapper()
            ),
        ),
        (
            byte9 & 0x0F == EXPONENT,
            format!("byte 9 is {byte9:02X}: the PRG count is in exponent form, which is not taken"),
        ),
        (
            byte9 >> 4 == EXPONENT,
            format!("byte 9 is {byte9:02X}: the CHR count is in exponent form, which is not taken"),
        ),
        (
            is_no_shift(byte10),
            format!("byte 10 is {byte10:02X}, but PRG RAM is taken with 00, 07 or 70 only"),
        ),
        (
            is_no_shift(byte11),
            format!("byte 11 is {byte11:02X}, but CHR RAM is taken with 00, 07 or 70 only"),
        ),
        (
            !has_chr_rom && byte11 == 0x00,
            "the CHR count is 0, which means CHR RAM, but byte 11 is 00 and says none".to_string(),
        ),
        (
            has_chr_rom && byte11 != 0x00,
            format!("the CHR count is not 0, but byte 11 is {byte11:02X} and says CHR RAM"),
        ),
    ];
    let holding = conditions.into_iter().filter(|(holds, _)| *holds);
    holding.map(|(_, words)| words).collect()
}

fn no_powers_of_two(prg: u16, chr: u16, is_nes2: bool) -> String {
    let wrong: Vec<String> = [("PRG", prg), ("CHR", chr)]
        .iter()
        .filter(|(_, count)| *count != 0 && !count.is_power_of_two())
        .map(|(what, count)| format!("{what} count {count}"))
        .collect();
    let taken = if is_nes2 {
        "1, 2, 4 and so on up to 2048"
    } else {
        "1, 2, 4, 8, 16, 32, 64 or 128"
    };
    format!("{}, but board mode takes {taken}", wrong.join(" and "))
}

fn of_trace(bytes: &[u8]) -> Report {
    let trace = match Trace::parse(bytes) {
        Ok(trace) => trace,
        Err(malformed) => {
            return Report {
                text: format!("begins as a trace and is malformed at {malformed}\n"),
                status: 1,
            }
        }
    };
    let Report { text, status } = of_image(trace.image());
    Report {
        text: format!(
            "is a trace in {} mode of {}; its image has {} bytes\n{text}{}",
            trace.mode(),
            events(trace.events().len()),
            trace.image().len(),
            where_modes_part(&trace)
        ),
        status,
    }
}

fn events(count: usize) -> String {
    match count {
        1 => "1 event".to_string(),
        count => format!("{count} events"),
    }
}

fn where_modes_part(trace: &Trace) -> String {
    let run = |mode| trace.in_mode(mode).run();
    match (run(Mode::House), run(Mode::Board)) {
        (Ok(house), Ok(board)) => where_runs_part(trace, &house, &board),
        (Err(_), Err(_)) => "no event is played in either mode\n".to_string(),
        _ => "the modes part at the load: only one of them takes the image\n".to_string(),
    }
}

fn where_runs_part(trace: &Trace, house: &Run, board: &Run) -> String {
    let mut pairs = house.answers.iter().zip(&board.answers);
    match pairs.position(|(house, board)| house != board) {
        None => format!(
            "both modes give the same answers to {}\n",
            events(trace.events().len())
        ),
        Some(number) => format!(
            "the modes part at event {number} ({}):\n  house  {}\n  board  {}{}\n",
            trace.events()[number],
            answer(house.answers[number], Mode::House),
            answer(board.answers[number], Mode::Board),
            lock_at(trace, number).unwrap_or_default()
        ),
    }
}

/// How board mode has locked PRG RAM at a read from it, which explains the byte; nothing where it is open.
fn lock_at(trace: &Trace, number: usize) -> Option<String> {
    match trace.events()[number] {
        Event::Read {
            address: 0x6000..=0x7FFF,
        } => {}
        _ => return None,
    }
    let mut board = Board::load(trace.image(), Mode::Board).ok()?;
    for event in &trace.events()[..number] {
        let _ = event.play(&mut board);
    }
    lock(&board.digits())
        .filter(|lock| *lock != OPEN)
        .map(|lock| format!("; PRG RAM is {lock}"))
}

/// What is said of PRG RAM as a load leaves it.
const OPEN: &str = "enabled, writes taken";

/// How the marks of PRG RAM stand, where there is PRG RAM that they can lock: on MMC3 in board mode.
fn lock(digits: &Digits) -> Option<&'static str> {
    let mmc3 = match digits.registers() {
        Registers::Mmc3(mmc3) if digits.mode() == Mode::Board && digits.has_prg_ram() => mmc3,
        _ => return None,
    };
    Some(match (mmc3.ram_enabled, mmc3.ram_writes_denied) {
        (true, false) => OPEN,
        (true, true) => "enabled, writes denied",
        (false, false) => "disabled",
        (false, true) => "disabled, writes denied",
    })
}

/// An answer as a line of the text has it, and in words.
fn answer(answer: Answer, mode: Mode) -> String {
    let words = match answer {
        Answer::Read(Ok(byte)) => format!("the byte {byte:02X}"),
        Answer::Write(Ok(None)) => "no notice".to_string(),
        Answer::Write(Ok(Some(mirroring))) => format!("the screens turn: {mirroring}"),
        Answer::Clock(Ok(yes)) => clock_answer(yes, mode).to_string(),
        Answer::Read(Err(refusal)) | Answer::Write(Err(refusal)) | Answer::Clock(Err(refusal)) => {
            refusal.to_string()
        }
    };
    format!("{answer:<7} {words}")
}

/// House mode tells what came at that clock, board mode the level of the line after it.
fn clock_answer(yes: bool, mode: Mode) -> &'static str {
    match (mode, yes) {
        (Mode::House, true) => "an IRQ",
        (Mode::House, false) => "no IRQ",
        (Mode::Board, true) => "the IRQ line is up",
        (Mode::Board, false) => "the IRQ line is low",
    }
}

fn of_snapshot(bytes: &[u8]) -> Report {
    let snapshot = match Snapshot::from_bytes(bytes) {
        Ok(snapshot) => snapshot,
        Err(error) => {
            return Report {
                text: format!("begins as a snapshot, and {error}\n"),
                status: 1,
            }
        }
    };
    let last_notice = snapshot
        .last_notice()
        .map_or_else(|| "none".to_string(), |notice| notice.to_string());
    let digits = snapshot.digits();
    let prg_ram = match lock(&digits) {
        Some(lock) => format!("  PRG RAM       {lock}\n"),
        None if digits.has_prg_ram() => String::new(),
        None => "  PRG RAM       none\n".to_string(),
    };
    Report {
        text: format!(
            "is a snapshot in {} mode\n  image hash    {:016X}\n  last notice   {last_notice}\n  \
             screens       {}\n  registers     {:?}\n{prg_ram}",
            snapshot.mode(),
            snapshot.image_hash(),
            snapshot.screens(),
            snapshot.registers()
        ),
        status: 0,
    }
}
