//! Times the proved loading factor and the proved tick against the Rust peer's, in one process and on the same input.

mod proved;

use std::hint::black_box;
use std::time::Instant;

use peer::day::Day;
use peer::loading::loading_factor;
use peer::policy::Least;
use peer::random::Random;
use peer::rates::RateTable;
use peer::renderer::Tape;
use peer::sheet::{sheet_words, Cue};
use peer::word::file_bytes;

const SIZES: [usize; 4] = [128, 256, 512, 1024];
const TRIALS: usize = 15;

/// Cues of an evening: spread over it, with some slack and some ties.
fn cues(count: usize) -> Vec<Cue> {
    let mut random = Random::new(count as u64);
    (0..count)
        .map(|_| {
            let release = random.below(10_000_000);
            let budget = random.between(1, 4_000);
            let deadline = release + budget + random.below(20_000);
            Cue { release, deadline, budget, units: 0 }
        })
        .collect()
}

/// The shortest time that `work` took for one round, in microseconds.
fn shortest(rounds: u32, mut work: impl FnMut()) -> f64 {
    (0..TRIALS)
        .map(|_| {
            let start = Instant::now();
            work();
            start.elapsed().as_secs_f64() * 1e6 / f64::from(rounds)
        })
        .fold(f64::INFINITY, f64::min)
}

/// The ticks of a day in which no job ends.
const TICKS: u32 = 60_000;

/// A fresh day of the peer's with this many jobs, ticked on.
fn peer_ticks(jobs: u32) -> u32 {
    let table = RateTable::new(vec![7, 10, 12, 14]).expect("the rates rise");
    let mut day = Day::open(table, Least, Tape::new(Vec::new()), 16_384).expect("there is room");
    for _ in 0..jobs {
        day.release(134_217_727, 65_535).expect("the job is in bounds");
    }
    for _ in 0..TICKS {
        black_box(day.tick().expect("there is room"));
    }
    day.clock()
}

fn time_ticks() {
    println!("\nmillions of ticks a second (the peer's day is recorded, the proved one is not)");
    println!("jobs   proved     peer    ratio");
    for jobs in [1, 64] {
        assert_eq!(proved::ticks(jobs, TICKS), peer_ticks(jobs));
        let proved = shortest(TICKS, || {
            black_box(proved::ticks(black_box(jobs), black_box(TICKS)));
        });
        let peer = shortest(TICKS, || {
            black_box(peer_ticks(black_box(jobs)));
        });
        println!("{jobs:4} {:8.1} {:8.1} {:8.2}", 1.0 / proved, 1.0 / peer, proved / peer);
    }
}

fn main() {
    time_loading_factor();
    time_ticks();
}

fn time_loading_factor() {
    println!("loading factor: microseconds, the shortest of {TRIALS} trials");
    println!("cues   proved     peer    ratio   growth");
    let mut before = None;
    for count in SIZES {
        let cues = cues(count);
        let sheet = file_bytes(&sheet_words(&[7, 10, 12, 14], &cues));
        assert_eq!(proved::load(&sheet, 1), Some(u64::from(loading_factor(&cues).0)));
        let rounds = (2048 / count) as u32 * 2;
        let proved = shortest(rounds, || {
            black_box(proved::load(black_box(&sheet), rounds));
        });
        let peer = shortest(rounds, || {
            for _ in 0..rounds {
                black_box(loading_factor(black_box(&cues)));
            }
        });
        let growth = before.map_or(String::from("-"), |b: f64| format!("{:.2}", proved / b));
        println!("{count:4} {proved:8.1} {peer:8.1} {:8.2} {growth:>8}", proved / peer);
        before = Some(proved);
    }
}
