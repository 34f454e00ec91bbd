//! The jobs that a run is made of, and the threads that take them.

use std::ops::Range;
use std::sync::atomic::{AtomicBool, AtomicU64, AtomicUsize, Ordering};
use std::sync::Mutex;
use std::thread;
use std::time::{Duration, Instant};

use crate::exhaustive::{self, Base, Depth};
use crate::histories;
use crate::images::{header, random_valid, Fill, Image, MAPPERS};
use crate::load_jobs;
use crate::random::Random;
use crate::sabotage::Sabotage;
use crate::tally::{grouped, Floor, Tally};
use crate::worker::{Failure, Job, Outcome, Worker};

const GATE_SEED: u64 = 4;
const GATE_ROUNDS: u64 = 24_000;

/// What the gate's run has to compare at least.
const GATE: Floor = Floor {
    in_all: 20_000_000,
    on_each: 4_000_000,
    paged: 20_000_000,
    paged_on_each: 4_000_000,
    paged_refused: 1_000,
    both_ways: 1_000_000,
};

const HISTORIES_PER_IMAGE: usize = 8;

/// How many rounds a plan has that no clock ends.
fn fixed_rounds(plan: Plan) -> u64 {
    match plan {
        Plan::Short => 400,
        _ => GATE_ROUNDS,
    }
}

/// One round of random histories: an image, and some histories on it.
fn random_round(worker: &mut Worker, seed: u64, round: u64) -> Outcome {
    let mut random = Random::new(seed, round);
    let mapper = MAPPERS[(round % 5) as usize];
    let image = random_valid(&mut random, mapper);
    worker.compare_image(&image)?;
    for _ in 0..HISTORIES_PER_IMAGE {
        let length = 20 + random.below(500);
        histories::compose(&mut random, &image, length, &mut worker.events);
        if random.once_in(40) {
            histories::read_back(&image, &mut worker.events);
        }
        worker.play_events(&image)?;
    }
    Ok(())
}

/// A round of a long run: mostly random histories, and by turns the exhaustive parts from states of its own.
fn long_round(worker: &mut Worker, seed: u64, round: u64) -> Outcome {
    let mut random = Random::new(!seed, round);
    match round % 4_096 {
        0 | 2_048 => {
            let chr_rom = random.once_in(2);
            let base = Base::random_roomy(&mut random, MAPPERS[(round / 2_048 % 5) as usize], chr_rom);
            let from = 0x1000 * random.below(16) as u32;
            exhaustive::every_write(worker, &base, from..from + 0x1000, Depth::Gate)
        }
        turn if turn % 64 == 1 => {
            let base = Base::random(&mut random, MAPPERS[(round / 64 % 5) as usize]);
            exhaustive::every_read(worker, &base)
        }
        turn if turn % 64 == 2 => load_jobs::random_images(worker, &mut random),
        _ => random_round(worker, seed, round),
    }
}

/// The fixed jobs: all exhaustive parts.
fn exhaustive_jobs(depth: Depth) -> Vec<Job> {
    let mut jobs: Vec<Job> = load_jobs::jobs();
    jobs.extend(write_jobs(depth));
    jobs.extend(read_jobs());
    jobs.extend(register_jobs());
    jobs
}

/// Every address and every byte, from a few states of each board, in blocks of addresses. The boards take turns, so
/// that a run that ends early has been on all of them.
fn write_jobs(depth: Depth) -> Vec<Job> {
    let states = if depth == Depth::Full { 8 } else { 2 };
    let mut jobs: Vec<Job> = Vec::new();
    for state in 0..states {
        let bases = MAPPERS.map(|mapper| {
            let mut random = Random::new(GATE_SEED, 1_000 + 100 * u64::from(mapper) + state);
            Base::random_roomy(&mut random, mapper, state % 2 == 1)
        });
        // Refused writes are slow: the full depth takes them all from the first two states, one with CHR ROM.
        let depth = if state < 2 { depth } else { Depth::Gate };
        for (block, base) in (0..32).flat_map(|block| bases.iter().map(move |base| (block, base.clone()))) {
            let addresses: Range<u32> = block * 0x800..(block + 1) * 0x800;
            jobs.push(Box::new(move |worker| exhaustive::every_write(worker, &base, addresses.clone(), depth)));
        }
    }
    jobs
}

/// Every address, from many states of each board.
fn read_jobs() -> Vec<Job> {
    let mut jobs: Vec<Job> = Vec::new();
    for (mapper, state) in MAPPERS.into_iter().flat_map(|mapper| (0..24).map(move |state| (mapper, state))) {
        jobs.push(Box::new(move |worker| {
            let mut random = Random::new(GATE_SEED, 2_000 + 100 * u64::from(mapper) + state);
            let base = match state % 4 {
                0 => Base::random_roomy(&mut random, mapper, false),
                1 => Base::random_roomy(&mut random, mapper, true),
                _ => Base::random(&mut random, mapper),
            };
            exhaustive::every_read(worker, &base)
        }));
    }
    jobs
}

/// Every register value in every window.
fn register_jobs() -> Vec<Job> {
    let image = |mapper, prg, chr| Image::exact(header(mapper, prg, chr, 1), Fill::Random(99));
    let mut jobs: Vec<Job> = Vec::new();
    let uxrom = image(2, 255, 1);
    for bank in (0..256).step_by(16) {
        let image = uxrom.clone();
        jobs.push(Box::new(move |worker| exhaustive::uxrom_banks(worker, &image, bank..bank + 16)));
    }
    for image in [image(1, 16, 16), image(1, 5, 3), image(1, 2, 0)] {
        for control in 0..32 {
            let image = image.clone();
            jobs.push(Box::new(move |worker| exhaustive::mmc1_registers(worker, &image, control)));
        }
    }
    for image in [image(4, 32, 32), image(4, 255, 255), image(4, 3, 5), image(4, 1, 0)] {
        for select in 0..8 {
            let image = image.clone();
            jobs.push(Box::new(move |worker| exhaustive::mmc3_registers(worker, &image, select)));
        }
    }
    let mmc3 = image(4, 1, 1);
    for counter in 0..=255 {
        let image = mmc3.clone();
        jobs.push(Box::new(move |worker| exhaustive::mmc3_irq(worker, &image, counter)));
    }
    jobs.push(Box::new(move |worker| exhaustive::mmc3_periods(worker, &mmc3)));
    jobs
}

/// How long a run goes on, and with what.
#[derive(Clone, Copy)]
pub enum Plan {
    /// The gate's: fixed seeds, the same calls every time.
    Gate,
    /// The exhaustive parts, more of them, and random rounds of this seed, by turns, for this many minutes.
    Minutes { minutes: f64, seed: u64 },
    /// A few loads and random rounds: for tests of the harness itself.
    Short,
}

/// What a run came to.
pub struct Summary {
    pub tally: Tally,
    pub rounds: u64,
    /// How many of the exhaustive jobs came to their end, and how many there are.
    pub jobs: (usize, usize),
    pub seconds: f64,
    pub failure: Option<Box<Failure>>,
}

impl Summary {
    /// What a run of this plan owes and has not done, if anything.
    pub fn shortfall(&self, plan: Plan) -> Option<String> {
        let (done, all) = self.jobs;
        match plan {
            Plan::Gate if done < all => Some(format!("exhaustive jobs {done} of {all}")),
            Plan::Gate => self.tally.shortfall(&GATE),
            _ => None,
        }
    }
}

struct Shared {
    jobs: Vec<Job>,
    jobs_done: AtomicUsize,
    next_turn: AtomicU64,
    next_job: AtomicUsize,
    next_round: AtomicU64,
    calls: AtomicU64,
    stop: AtomicBool,
    failure: Mutex<Option<Box<Failure>>>,
    tally: Mutex<Tally>,
    plan: Plan,
    sabotage: Sabotage,
    started: Instant,
}

/// Runs the plan on this many threads, with a progress line if asked for.
pub fn run(plan: Plan, threads: usize, sabotage: Sabotage, progress: bool) -> Summary {
    let jobs = match plan {
        Plan::Gate => exhaustive_jobs(Depth::Gate),
        Plan::Minutes { .. } => exhaustive_jobs(Depth::Full),
        Plan::Short => load_jobs::quick_jobs(),
    };
    let shared = Shared {
        jobs,
        jobs_done: AtomicUsize::new(0),
        next_turn: AtomicU64::new(0),
        next_job: AtomicUsize::new(0),
        next_round: AtomicU64::new(0),
        calls: AtomicU64::new(0),
        stop: AtomicBool::new(false),
        failure: Mutex::new(None),
        tally: Mutex::new(Tally::default()),
        plan,
        sabotage,
        started: Instant::now(),
    };
    thread::scope(|scope| {
        let workers: Vec<_> = (0..threads).map(|_| scope.spawn(|| work(&shared))).collect();
        while progress && workers.iter().any(|worker| !worker.is_finished()) {
            thread::sleep(Duration::from_secs(1));
            print_progress(&shared);
        }
    });
    if progress {
        eprintln!();
    }
    let taken = shared.next_round.load(Ordering::Relaxed);
    let rounds = if let Plan::Minutes { .. } = plan { taken } else { taken.min(fixed_rounds(plan)) };
    Summary {
        tally: shared.tally.into_inner().expect("no worker panics while it holds the tally"),
        rounds,
        jobs: (shared.jobs_done.load(Ordering::Relaxed), shared.jobs.len()),
        seconds: shared.started.elapsed().as_secs_f64(),
        failure: shared.failure.into_inner().expect("no worker panics while it holds the failure"),
    }
}

fn print_progress(shared: &Shared) {
    let calls = shared.calls.load(Ordering::Relaxed);
    let seconds = shared.started.elapsed().as_secs_f64();
    let done = shared.jobs_done.load(Ordering::Relaxed);
    let rounds = shared.next_round.load(Ordering::Relaxed);
    eprint!(
        "\r{seconds:.0} s: {} calls compared, {:.1} million a second; exhaustive jobs {done} of {}, {rounds} rounds ",
        grouped(calls),
        calls as f64 / seconds / 1e6,
        shared.jobs.len()
    );
}

fn work(shared: &Shared) {
    let mut worker = Worker::new(shared.sabotage);
    let mut counted = 0;
    while !shared.stop.load(Ordering::Relaxed) {
        let outcome = match next(shared, &mut worker) {
            Some(outcome) => outcome,
            None => break,
        };
        let calls = worker.tally.calls();
        shared.calls.fetch_add(calls - counted, Ordering::Relaxed);
        counted = calls;
        if let Err(failure) = outcome {
            shared.stop.store(true, Ordering::Relaxed);
            shared.failure.lock().expect("no worker panics here").get_or_insert(failure);
        }
    }
    shared.tally.lock().expect("no worker panics here").add(&worker.tally);
}

/// The next piece of work, done; none when the run is at its end.
fn next(shared: &Shared, worker: &mut Worker) -> Option<Outcome> {
    let turn = shared.next_turn.fetch_add(1, Ordering::Relaxed);
    let job_is_next = match shared.plan {
        Plan::Minutes { minutes, .. } if shared.started.elapsed().as_secs_f64() > 60.0 * minutes => return None,
        // Jobs and rounds take turns, so that a run that ends early has had some of everything.
        Plan::Minutes { .. } => turn % 64 == 0,
        _ => true,
    };
    if job_is_next {
        let job = shared.next_job.fetch_add(1, Ordering::Relaxed);
        if let Some(job) = shared.jobs.get(job) {
            let outcome = job(worker);
            shared.jobs_done.fetch_add(usize::from(outcome.is_ok()), Ordering::Relaxed);
            return Some(outcome);
        }
    }
    let round = shared.next_round.fetch_add(1, Ordering::Relaxed);
    match shared.plan {
        Plan::Minutes { seed, .. } => Some(long_round(worker, seed, round)),
        plan => (round < fixed_rounds(plan)).then(|| random_round(worker, GATE_SEED, round)),
    }
}
