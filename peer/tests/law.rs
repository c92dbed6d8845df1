//! The law that makes slowing down safe, tried on random days: a job that is
//! over in the reference run is over in the day, at its last bound at the
//! latest, and that bound is no later than its end in the reference run.

use peer::day::{Day, Tick};
use peer::loading::loading_factor;
use peer::policy::{Floor, Least, Policy, Top, is_enough};
use peer::random::Random;
use peer::rates::RateTable;
use peer::reference::ReferenceRun;
use peer::renderer::{Answer, Renderer};
use peer::sheet::Cue;
use peer::word::{Kind, Word};

/// Takes any level that is enough.
struct AnyEnough(Random);

impl Policy for AnyEnough {
    fn level(&mut self, table: &RateTable, remaining: u32, ticks: u32) -> Option<usize> {
        let enough = |&level: &usize| is_enough(table, level, remaining, ticks);
        let levels: Vec<usize> = (1..=table.top_level()).filter(enough).collect();
        (!levels.is_empty()).then(|| self.0.pick(&levels))
    }
}

/// Ends jobs when it likes, on average once in so many ticks.
struct Moody {
    random: Random,
    ends_once_in: u32,
    requests: u32,
}

impl Renderer for Moody {
    fn run(&mut self, _job: u32, _rate: u32) -> Answer {
        self.requests += 1;
        if !self.random.once_in(self.ends_once_in) {
            Answer::Running
        } else if self.random.once_in(4) {
            Answer::Failed(self.random.below(65_536) as u16)
        } else {
            Answer::Finished
        }
    }

    fn requests(&self) -> u32 {
        self.requests
    }
}

/// What the ticks of a day have told about a job.
#[derive(Clone, Copy, Default)]
struct Told {
    last_bound: Option<u32>,
    end: Option<u32>,
}

/// A day and its reference run, side by side.
struct Pair<P> {
    day: Day<P, Moody>,
    reference: ReferenceRun,
    told: Vec<Told>,
    busy_ticks: u32,
}

impl<P: Policy> Pair<P> {
    fn new(policy: P, random: &mut Random) -> Pair<P> {
        let mut rates: Vec<u32> = (0..random.between(1, 6))
            .map(|_| random.between(1, 20))
            .collect();
        rates.sort_unstable();
        rates.dedup();
        let table = RateTable::new(rates).expect("rising rates");
        let renderer = Moody {
            random: Random::new(random.next_number()),
            ends_once_in: random.pick(&[1, 2, 4, 10, 100]),
            requests: 0,
        };
        let room = if random.once_in(5) {
            random.between(20, 200)
        } else {
            100_000
        };
        Pair {
            day: Day::open(table, policy, renderer, room as usize).expect("room to open"),
            reference: ReferenceRun::new(),
            told: Vec::new(),
            busy_ticks: 0,
        }
    }

    fn release(&mut self, deadline: u32, budget: u32) {
        if let Ok(number) = self.day.release(deadline, budget) {
            self.reference.release(deadline, budget);
            self.told.push(Told::default());
            assert_eq!(number as usize, self.told.len());
        }
    }

    fn tick(&mut self) {
        let Ok(tick) = self.day.tick() else {
            return;
        };
        self.reference.tick();
        if let Tick::Busy(busy) = tick {
            self.busy_ticks += 1;
            let told = &mut self.told[busy.job as usize - 1];
            told.last_bound = busy.switch.map(|switch| switch.bound).or(told.last_bound);
            told.end = busy.ending.map(|_| self.day.clock());
        }
        assert_eq!(self.day.clock(), self.reference.clock());
        assert_eq!(self.day.requests(), self.busy_ticks);
    }

    fn check_law(&self) {
        for (told, job) in self.told.iter().zip(self.reference.jobs()) {
            if let Some(reference_end) = job.end {
                let end = told
                    .end
                    .expect("over in the reference run, so over in the day");
                let last_bound = told.last_bound.expect("a job that is over has run");
                assert!(
                    end <= last_bound,
                    "over at {end}, after its bound {last_bound}"
                );
                assert!(
                    last_bound <= reference_end,
                    "{last_bound} is after {reference_end}"
                );
            }
        }
    }

    /// If in no interval more was asked than there is time, nothing is late.
    fn check_deadlines(&self) -> bool {
        let cue = |job: &peer::reference::ReferenceJob| Cue {
            release: job.release,
            deadline: job.deadline,
            budget: job.budget,
            units: 0,
        };
        let cues: Vec<Cue> = self.reference.jobs().iter().map(cue).collect();
        let (demand, length, _, _) = loading_factor(&cues);
        let fits = demand <= length;
        for (told, cue) in self.told.iter().zip(&cues).filter(|_| fits) {
            let in_time = told.end.is_some_and(|end| end <= cue.deadline);
            assert!(in_time || self.day.clock() < cue.deadline);
        }
        fits
    }

    fn check_trace(self) {
        let clock = self.day.clock();
        let words = self.day.close();
        let ticks = words.iter().filter(|word| word.kind() == Kind::Amount);
        assert_eq!(ticks.map(|word| word.payload()).sum::<u32>(), clock);
        let together = |pair: &[Word]| pair.iter().all(|word| word.kind() == Kind::Amount);
        assert!(!words.windows(2).any(together));
    }
}

/// Makes random calls and checks after each; tells whether all work did fit.
fn try_calls<P: Policy>(policy: P, random: &mut Random) -> bool {
    let mut pair = Pair::new(policy, random);
    let span = random.pick(&[3, 8, 20, 60]);
    let budget_max = random.pick(&[1, 3, 6, 15]);
    let ticks_for_a_release = random.pick(&[1, 2, 6, 12]);
    for _ in 0..random.between(1, 150) {
        if random.once_in(1 + ticks_for_a_release) {
            let deadline = pair.day.clock() + random.below(span + 1);
            pair.release(deadline, random.below(budget_max + 1));
        } else {
            pair.tick();
        }
        pair.check_law();
    }
    let fits = pair.check_deadlines();
    pair.check_trace();
    fits
}

#[test]
fn the_law_holds_on_random_days() {
    const DAYS: u32 = 10_000;
    let mut fitting = 0;
    for start in 0..u64::from(DAYS) {
        let random = &mut Random::new(start);
        let any = AnyEnough(Random::new(random.next_number()));
        let level = random.below(8) as usize;
        let inner = AnyEnough(Random::new(random.next_number()));
        fitting += u32::from(try_calls(any, random));
        fitting += u32::from(try_calls(Least, random));
        fitting += u32::from(try_calls(Top, random));
        fitting += u32::from(try_calls(Floor { level, inner }, random));
    }
    // Both sides of the line must have been tried often.
    assert!(
        fitting > DAYS / 4 && fitting < 4 * DAYS - DAYS / 4,
        "{fitting} did fit"
    );
}
