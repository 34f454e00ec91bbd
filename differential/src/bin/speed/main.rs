//! How long reads, writes and clocks take through the wrapper's adapter and by the exported calls, beside the original's
//! through `Rc<RefCell<dyn Mapper>>`, as its bus holds a board. See `--help`.

mod calls;
mod sides;
mod table;

use std::path::{Path, PathBuf};
use std::process::ExitCode;
use std::time::Instant;
use std::{env, fs, io};

use biekkarul::Mode;
use differential::events::Event;
use differential::images::{header, Fill, Image};

use calls::Caller;
use sides::{Calls, Held, Side};
use table::{section, Cell, Table, BEGIN, CALL_GOALS, END, WRAPPER_GOALS};

const HELP: &str = "\
speed: measures the wrapper and the exported calls against the original and writes the tables to docs/BENCHMARKS.md

  speed [--rounds N] [--out FILE]    N rounds of each measurement, 101 if not said; FILE instead of docs/BENCHMARKS.md";

/// Images on which no call of this program can be refused, whatever the registers hold.
const BOARDS: [(u8, u8, u8); 5] = [(0, 2, 0), (1, 16, 32), (2, 8, 0), (3, 2, 4), (4, 16, 16)];

/// The sides: the original, then the wrapper and the calls in house mode, then both in board mode.
const SIDES: usize = 5;

fn sides(image: &[u8]) -> [Box<dyn Side>; SIDES] {
    [
        Box::new(Held::original(image)),
        Box::new(Held::wrapper(image, Mode::House)),
        Box::new(Calls::new(image, Mode::House)),
        Box::new(Held::wrapper(image, Mode::Board)),
        Box::new(Calls::new(image, Mode::Board)),
    ]
}

fn tables() -> [Table; SIDES - 1] {
    let table = |title, goals| Table { title, goals, rows: Default::default() };
    [
        table("House mode, the wrapper's `BusBoard`", WRAPPER_GOALS),
        table("House mode, checked calls", CALL_GOALS),
        table("Board mode, the wrapper's `BusBoard`, beside the original, which has house mode only", WRAPPER_GOALS),
        table("Board mode, checked calls, beside the same", CALL_GOALS),
    ]
}

/// What each side of ours comes to beside the original.
fn measure(image: &Image, events: &[Event], rounds: usize) -> Result<[Cell; SIDES - 1], String> {
    let mut sides = sides(image.bytes.get());
    let mut times: [Vec<f64>; SIDES] = Default::default();
    for round in 0..rounds {
        let mut sums = [0; SIDES];
        // The order turns from round to round, so that none always runs into the same caches.
        for turn in 0..SIDES {
            let side = (round + turn) % SIDES;
            let started = Instant::now();
            sums[side] = sides[side].play(events);
            times[side].push(started.elapsed().as_secs_f64() * 1e9 / events.len() as f64);
        }
        let [original, house, house_calls, board, board_calls] = sums;
        if original != house || original != house_calls || board != board_calls {
            return Err(format!("mapper {}: the sums of the answers differ: {sums:?}", image.mapper()));
        }
    }
    let [theirs, ours @ ..] = times;
    Ok(ours.map(|ours| Cell::of(&ours, &theirs)))
}

fn measure_all(rounds: usize) -> Result<[Table; SIDES - 1], String> {
    let mut tables = tables();
    for (row, (mapper, prg, chr)) in BOARDS.into_iter().enumerate() {
        let image = Image::exact(header(mapper, prg, chr, 1), Fill::Random(1));
        for (column, events) in Caller::new(mapper).all().iter().enumerate() {
            for (table, cell) in tables.iter_mut().zip(measure(&image, events, rounds)?) {
                table.rows[row][column] = cell;
            }
        }
    }
    Ok(tables)
}

/// Puts the section between its marks, or at the end of a file that has none.
fn put(file: &Path, section: &str) -> io::Result<()> {
    let text = match fs::read_to_string(file) {
        Ok(text) => text,
        Err(error) if error.kind() == io::ErrorKind::NotFound => "# Benchmarks\n\n## Speed\n\n".into(),
        Err(error) => return Err(error),
    };
    let whole = match (text.find(BEGIN), text.find(END)) {
        (Some(from), Some(to)) if from < to => format!("{}{section}{}", &text[..from], &text[to + END.len()..]),
        _ => format!("{}\n\n{section}\n", text.trim_end()),
    };
    fs::write(file, whole)
}

fn parse() -> Result<(usize, PathBuf), String> {
    let mut rounds = 101;
    let mut file = Path::new(env!("CARGO_MANIFEST_DIR")).join("../docs/BENCHMARKS.md");
    let mut arguments = env::args().skip(1);
    while let Some(name) = arguments.next() {
        let value = arguments.next().ok_or(format!("{name} needs a value, or is no option"))?;
        match name.as_str() {
            "--rounds" => {
                let parsed = value.parse().ok().filter(|rounds| (1..=100_000).contains(rounds));
                rounds = parsed.ok_or(format!("--rounds needs a number from 1 to 100000, not {value:?}"))?;
            }
            "--out" => file = value.into(),
            _ => return Err(format!("no option {name}")),
        }
    }
    Ok((rounds, file))
}

fn main() -> ExitCode {
    if env::args().any(|argument| argument == "--help") {
        println!("{HELP}");
        return ExitCode::SUCCESS;
    }
    let (rounds, file) = match parse() {
        Ok(options) => options,
        Err(problem) => {
            eprintln!("speed: {problem}\n{HELP}");
            return ExitCode::from(2);
        }
    };
    let section = match measure_all(rounds) {
        Ok(tables) => section(&tables, rounds),
        Err(problem) => {
            eprintln!("speed: {problem}");
            return ExitCode::FAILURE;
        }
    };
    println!("{section}");
    if let Err(error) = put(&file, &section) {
        eprintln!("speed: cannot write {}: {error}", file.display());
        return ExitCode::FAILURE;
    }
    ExitCode::SUCCESS
}
