//! A shop's server in small: it plays submitted runs on several threads, keeps each one in its middle as a
//! snapshot, takes all of them up again elsewhere, and checks that the answers are those of the run played
//! in one go.
//!
//!     cargo run --offline --manifest-path rust/Cargo.toml --example shop
//!
//! Status: 0 every check holds; 1 one does not, which is told on standard error; 2 the summary could not be
//! written. With `--fault` each board is changed after it is taken up, to show that the checks find it: the
//! status is then 1.

mod common;

use std::env;
use std::process::ExitCode;
use std::sync::Arc;
use std::thread;

use biekkarul::trace::{Answer, Event};
use biekkarul::{Board, Mode, Refusal, Snapshot, SnapshotError, RAM_LENGTH};

const RUNS: usize = 64;
const THREADS: usize = 8;
const EVENTS: usize = 4_000;

const USAGE: &str = "usage: shop [--fault]";

const HELP: &str = "\
Plays 64 runs in 8 threads, takes each one up again from a snapshot, and compares the answers.

usage: shop
       shop --fault    changes each board after it is taken up, which must be found
       shop --help     shows this

status: 0 all the same, 1 not, 2 not told
";

/// Bytes 4 to 11 of the header of an MMC3, an MMC1, a UxROM, a CNROM and an NROM game; and of an MMC3 game that is
/// marked NES 2.0, with CHR RAM and, in board mode, no PRG RAM.
const GAMES: [[u8; 8]; 6] = [
    [4, 2, 0x41, 0x00, 0, 0, 0x00, 0x00],
    [4, 0, 0x10, 0x00, 0, 0, 0x00, 0x00],
    [4, 0, 0x20, 0x00, 0, 0, 0x00, 0x00],
    [2, 4, 0x31, 0x00, 0, 0, 0x00, 0x00],
    [2, 0, 0x00, 0x00, 0, 0, 0x00, 0x00],
    [4, 0, 0x40, 0x08, 0, 0, 0x00, 0x07],
];

/// What the shop sells: an image, shared by all its boards, and the mode that it runs in for good.
struct Title {
    image: Arc<[u8]>,
    mode: Mode,
}

/// A run as a player sent it.
struct Submission {
    title: usize,
    events: Vec<Event>,
}

/// A run played in one go, and what was kept in its middle.
struct Played {
    answers: Vec<Answer>,
    at_end: Board<Arc<[u8]>>,
    kept: Vec<u8>,
}

/// Numbers without a pattern that a board would follow, the same at every start.
struct Numbers(u64);

impl Numbers {
    fn next(&mut self) -> u64 {
        self.0 = self
            .0
            .wrapping_mul(6_364_136_223_846_793_005)
            .wrapping_add(1_442_695_040_888_963_407);
        self.0 >> 33
    }
}

fn main() -> ExitCode {
    let arguments: Vec<String> = env::args().skip(1).collect();
    let fault = match arguments.iter().map(String::as_str).collect::<Vec<_>>()[..] {
        [] => false,
        ["--fault"] => true,
        ["--help"] => return tell(HELP),
        _ => {
            eprintln!("shop: {USAGE}");
            return ExitCode::from(2);
        }
    };
    match open_shop(fault) {
        Ok(summary) => tell(&summary),
        Err(complaints) => {
            for complaint in &complaints {
                eprintln!("shop: {complaint}");
            }
            ExitCode::FAILURE
        }
    }
}

fn tell(text: &str) -> ExitCode {
    match common::print(text) {
        Ok(()) => ExitCode::SUCCESS,
        Err(message) => {
            eprintln!("shop: {message}");
            ExitCode::from(2)
        }
    }
}

/// Plays every run, takes every one up again, and says what was done or what is wrong.
fn open_shop(fault: bool) -> Result<String, Vec<String>> {
    let titles = titles();
    let submissions: Vec<Submission> = (0..RUNS).map(submission).collect();
    let played = in_threads(|run| play(&titles, &submissions[run]))
        .into_iter()
        .collect::<Result<Vec<Played>, Refusal>>()
        .map_err(|refusal| vec![format!("a title cannot be loaded: {refusal}")])?;
    let complaints: Vec<String> = in_threads(|run| {
        let checked = take_up(&titles, &submissions[run], &played[run], fault);
        checked.err().map(|why| format!("run {run}: {why}"))
    })
    .into_iter()
    .flatten()
    .chain(nothing_happened(&played))
    .collect();
    if complaints.is_empty() {
        return Ok(summary(&titles, &submissions, &played));
    }
    Err(complaints)
}

/// Each game in both modes.
fn titles() -> Vec<Title> {
    GAMES
        .iter()
        .flat_map(|game| Mode::ALL.map(|mode| (game, mode)))
        .map(|(fields, mode)| Title {
            image: image(fields).into(),
            mode,
        })
        .collect()
}

fn image(fields: &[u8; 8]) -> Vec<u8> {
    let mut image = [&b"NES\x1A"[..], fields].concat();
    image.resize(16, 0);
    let length = usize::from(fields[0]) * 16_384 + usize::from(fields[1]) * 8_192;
    image.extend((0..length).map(|place| (place * 31 + place / 1_024 * 7) as u8));
    image
}

fn submission(run: usize) -> Submission {
    let mut numbers = Numbers(run as u64);
    Submission {
        title: run % (GAMES.len() * Mode::ALL.len()),
        events: (0..EVENTS).map(|_| event(&mut numbers)).collect(),
    }
}

/// Reads and writes anywhere and clocks, with small values often, so that banks stay in reach.
fn event(numbers: &mut Numbers) -> Event {
    let (address, any) = (numbers.next() as u16, numbers.next() as u8);
    let value = if numbers.next() % 4 == 0 {
        any
    } else {
        any & 0x07
    };
    match numbers.next() % 8 {
        0..=3 => Event::Read { address },
        4..=6 => Event::Write { address, value },
        _ => Event::Clock,
    }
}

/// Does one thing for each run, on so many threads, each with a share of the runs.
fn in_threads<T: Send>(work: impl Fn(usize) -> T + Sync) -> Vec<T> {
    let share = RUNS / THREADS;
    let work = &work;
    thread::scope(|scope| {
        let threads: Vec<_> = (0..THREADS)
            .map(|thread| {
                let runs = thread * share..(thread + 1) * share;
                scope.spawn(move || runs.map(work).collect::<Vec<T>>())
            })
            .collect();
        threads
            .into_iter()
            .flat_map(|thread| thread.join().expect("a thread comes to its end"))
            .collect()
    })
}

fn play(titles: &[Title], submission: &Submission) -> Result<Played, Refusal> {
    let title = &titles[submission.title];
    let mut board = Board::load(Arc::clone(&title.image), title.mode)?;
    let (first, second) = submission.events.split_at(EVENTS / 2);
    let mut answers = answers(&mut board, first);
    let kept = board.snapshot().to_bytes();
    answers.extend(self::answers(&mut board, second));
    Ok(Played {
        answers,
        at_end: board,
        kept,
    })
}

fn answers(board: &mut Board<Arc<[u8]>>, events: &[Event]) -> Vec<Answer> {
    events.iter().map(|event| event.play(board)).collect()
}

/// Goes on from the kept bytes, once in a new board and once in one that has played something else.
fn take_up(
    titles: &[Title],
    submission: &Submission,
    played: &Played,
    fault: bool,
) -> Result<(), String> {
    let title = &titles[submission.title];
    let snapshot = Snapshot::from_bytes(&played.kept).map_err(|error| error.to_string())?;
    let fresh = Board::from_snapshot(Arc::clone(&title.image), title.mode, &snapshot)
        .map_err(|error| format!("taking up in a new board: {error}"))?;
    let mut used = played.at_end.clone();
    used.restore(&snapshot)
        .map_err(|error| format!("taking up in place: {error}"))?;
    for mut board in [fresh, used] {
        if fault {
            spoil(&mut board);
        }
        goes_on_as_played(board, submission, played)?;
    }
    mix_ups_are_refused(titles, submission.title, &snapshot)
}

/// Moves a bank where the board has one, and bytes that are seen at the end where it has none: two of them, since a
/// run may write over one.
fn spoil(board: &mut Board<Arc<[u8]>>) {
    for place in [0, RAM_LENGTH - 1] {
        board.prg_ram_mut()[place] ^= 0xFF;
    }
    let _ = board.write(0x8000, 1);
}

fn goes_on_as_played(
    mut board: Board<Arc<[u8]>>,
    submission: &Submission,
    played: &Played,
) -> Result<(), String> {
    let (events, wanted) = (
        &submission.events[EVENTS / 2..],
        &played.answers[EVENTS / 2..],
    );
    let answers = answers(&mut board, events);
    if let Some(place) = (0..events.len()).find(|&place| answers[place] != wanted[place]) {
        return Err(format!(
            "event {} ({}) was answered '{}' and is now answered '{}'",
            EVENTS / 2 + place,
            events[place],
            wanted[place],
            answers[place]
        ));
    }
    if board != played.at_end {
        return Err("the answers are the same, but the board at the end is another".to_string());
    }
    Ok(())
}

/// A snapshot goes to no other game, and to no other mode of its own.
fn mix_ups_are_refused(titles: &[Title], own: usize, snapshot: &Snapshot) -> Result<(), String> {
    for (place, title) in titles.iter().enumerate().filter(|(place, _)| *place != own) {
        let same_game = title.image == titles[own].image;
        let wanted = if same_game {
            SnapshotError::OtherMode {
                kept: titles[own].mode,
            }
        } else {
            SnapshotError::OtherImage
        };
        let taken = Board::from_snapshot(&title.image[..], title.mode, snapshot);
        if taken.map(|_| ()) != Err(wanted) {
            return Err(format!("title {place} takes a snapshot of title {own}"));
        }
    }
    Ok(())
}

/// Runs in which no notice, no clock's yes or no refusal comes would prove little.
fn nothing_happened(played: &[Played]) -> Option<String> {
    let counts = [notices(played), yes_clocks(played), refusals(played)];
    counts.contains(&0).then(|| {
        format!(
            "notices, clocks answered yes and refusals are {counts:?}: the runs show too little"
        )
    })
}

fn count(played: &[Played], is_one: impl Fn(&Answer) -> bool) -> usize {
    let answers = played.iter().flat_map(|run| &run.answers);
    answers.filter(|answer| is_one(answer)).count()
}

fn notices(played: &[Played]) -> usize {
    count(played, |answer| {
        matches!(answer, Answer::Write(Ok(Some(_))))
    })
}

/// In house mode an IRQ comes at such a clock; in board mode the IRQ line is up after it.
fn yes_clocks(played: &[Played]) -> usize {
    count(played, |answer| *answer == Answer::Clock(Ok(true)))
}

fn refusals(played: &[Played]) -> usize {
    count(played, |answer| answer.refusal().is_some())
}

fn summary(titles: &[Title], submissions: &[Submission], played: &[Played]) -> String {
    let in_mode = |mode| {
        let of_mode = |run: &&Submission| titles[run.title].mode == mode;
        submissions.iter().filter(of_mode).count()
    };
    format!(
        "{RUNS} runs in {THREADS} threads, {} in house mode and {} in board mode\n\
         {} calls with {} notices, {} clocks answered yes and {} refusals\n\
         {} snapshots of {} bytes, taken up again in new boards and in place: the same answers\n",
        in_mode(Mode::House),
        in_mode(Mode::Board),
        count(played, |_| true),
        notices(played),
        yes_clocks(played),
        refusals(played),
        played.len(),
        Snapshot::LENGTH
    )
}
