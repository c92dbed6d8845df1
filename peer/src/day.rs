//! A day of the box: jobs are released, and tick by tick the pending job with
//! the earliest deadline runs, slowed down as far as its bound allows. A bound
//! is the clock by which a job must be over; what a job leaves of its own is
//! handed to the one after it.

use std::fmt;

use crate::policy::Policy;
use crate::rates::{RateTable, TableFault};
use crate::renderer::{Answer, Renderer};
use crate::sheet::{BUDGET_MAX, DEADLINE_MAX};
use crate::trace::Trace;
use crate::word::{Kind, Word};

pub const CLOCK_MAX: u32 = 134_217_727;
pub const BUDGET_SUM_MAX: u32 = 134_217_727;
pub const PENDING_MAX: usize = 64;

/// Free words that a release or a tick wants before it writes any.
const WORDS_A_CALL: usize = 10;

/// Why a call was refused, with the value that goes with it.
#[derive(Clone, Copy, Debug, PartialEq, Eq)]
pub enum Refusal {
    Table(TableFault),
    /// The budget asked for is out of range.
    Budget(u32),
    /// The deadline asked for is too late, or not after the clock.
    Deadline(u32),
    /// As many jobs are pending as there may be; holds how many.
    Pending(usize),
    /// With this job the accepted budgets would be too many; holds their sum.
    BudgetSum(u32),
    /// The clock can rise no further; holds the clock.
    Clock(u32),
    /// Too few trace words are free; holds how many.
    Room(usize),
}

impl Refusal {
    pub fn number(self) -> u32 {
        match self {
            Refusal::Table(TableFault::LevelCount(_)) => 1,
            Refusal::Table(TableFault::Rate(_)) => 2,
            Refusal::Budget(_) => 3,
            Refusal::Deadline(_) => 4,
            Refusal::Pending(_) => 5,
            Refusal::BudgetSum(_) => 6,
            Refusal::Clock(_) => 7,
            Refusal::Room(_) => 8,
        }
    }

    pub fn value(self) -> usize {
        match self {
            Refusal::Table(TableFault::LevelCount(value) | TableFault::Rate(value))
            | Refusal::Pending(value)
            | Refusal::Room(value) => value,
            Refusal::Budget(value)
            | Refusal::Deadline(value)
            | Refusal::BudgetSum(value)
            | Refusal::Clock(value) => value as usize,
        }
    }
}

impl fmt::Display for Refusal {
    fn fmt(&self, f: &mut fmt::Formatter<'_>) -> fmt::Result {
        write!(f, "refused {} {}", self.number(), self.value())
    }
}

/// What a tick did.
#[derive(Clone, Copy, Debug, PartialEq, Eq)]
pub enum Tick {
    Idle,
    Busy(BusyTick),
}

/// A tick in which a job ran.
#[derive(Clone, Copy, Debug, PartialEq, Eq)]
pub struct BusyTick {
    pub job: u32,
    /// The job that ran before and gave way to this one.
    pub set_aside: Option<u32>,
    /// Set if the job did not run in the tick before.
    pub switch: Option<Switch>,
    pub rate: u32,
    /// Set if the job is over.
    pub ending: Option<Ending>,
}

/// What a job was given when it took over.
#[derive(Clone, Copy, Debug, PartialEq, Eq)]
pub struct Switch {
    pub resumed: bool,
    pub level: usize,
    pub bound: u32,
}

#[derive(Clone, Copy, Debug, PartialEq, Eq)]
pub enum Ending {
    Finished,
    /// The job was still running when its budget was used up.
    Cut,
    Failed(u16),
}

/// A released job that is not over.
struct Job {
    number: u32,
    deadline: u32,
    budget: u32,
    /// Units of its budget that are left.
    remaining: u32,
    stage: Stage,
}

#[derive(Clone, Copy)]
enum Stage {
    NeverStarted,
    /// It ran in the tick before.
    Running {
        level: usize,
        bound: u32,
    },
    /// Another job took over when the clock was `since`.
    SetAside {
        bound: u32,
        since: u32,
    },
}

pub struct Day<P, R> {
    table: RateTable,
    policy: P,
    renderer: R,
    trace: Trace,
    clock: u32,
    jobs_accepted: u32,
    budgets_accepted: u32,
    pending: Vec<Job>,
    /// Bound and deadline of the job that was over last.
    handed_bound: u32,
    handed_deadline: u32,
}

impl<P: Policy, R: Renderer> Day<P, R> {
    /// A fresh day at clock 0, recorded in a trace of so many words.
    pub fn open(table: RateTable, policy: P, renderer: R, room: usize) -> Result<Self, Refusal> {
        let mut trace = Trace::with_room(room);
        if trace.free() < table.top_level() + 3 {
            return Err(Refusal::Room(trace.free()));
        }
        trace.open(&table);
        Ok(Day {
            table,
            policy,
            renderer,
            trace,
            clock: 0,
            jobs_accepted: 0,
            budgets_accepted: 0,
            pending: Vec::new(),
            handed_bound: 0,
            handed_deadline: 0,
        })
    }

    pub fn clock(&self) -> u32 {
        self.clock
    }

    pub fn has_pending(&self) -> bool {
        !self.pending.is_empty()
    }

    /// How many runs the renderer was asked for.
    pub fn requests(&self) -> u32 {
        self.renderer.requests()
    }

    /// Ends the recording and gives its words.
    pub fn close(self) -> Vec<Word> {
        self.trace.close(self.clock)
    }

    /// Releases a job now and answers its number.
    pub fn release(&mut self, deadline: u32, budget: u32) -> Result<u32, Refusal> {
        self.check_release(deadline, budget)?;
        self.jobs_accepted += 1;
        self.budgets_accepted += budget;
        let number = self.jobs_accepted;
        self.trace.write(Kind::Release, number);
        self.trace.write(Kind::Deadline, deadline);
        self.trace.write(Kind::Budget, budget);
        self.pending.push(Job {
            number,
            deadline,
            budget,
            remaining: budget * self.table.top_rate(),
            stage: Stage::NeverStarted,
        });
        Ok(number)
    }

    fn check_release(&self, deadline: u32, budget: u32) -> Result<(), Refusal> {
        if !(1..=BUDGET_MAX).contains(&budget) {
            return Err(Refusal::Budget(budget));
        }
        if deadline <= self.clock || deadline > DEADLINE_MAX {
            return Err(Refusal::Deadline(deadline));
        }
        if self.pending.len() == PENDING_MAX {
            return Err(Refusal::Pending(self.pending.len()));
        }
        if self.budgets_accepted + budget > BUDGET_SUM_MAX {
            return Err(Refusal::BudgetSum(self.budgets_accepted));
        }
        self.check_room()
    }

    fn check_room(&self) -> Result<(), Refusal> {
        if self.trace.free() < WORDS_A_CALL {
            return Err(Refusal::Room(self.trace.free()));
        }
        Ok(())
    }

    /// Lets a tick go by.
    pub fn tick(&mut self) -> Result<Tick, Refusal> {
        if self.clock == CLOCK_MAX {
            return Err(Refusal::Clock(self.clock));
        }
        self.check_room()?;
        let Some(place) = self.first_pending() else {
            self.pass_tick();
            return Ok(Tick::Idle);
        };
        let (set_aside, switch, level) = match self.pending[place].stage {
            Stage::Running { level, .. } => (None, None, level),
            _ => {
                let set_aside = self.set_running_aside();
                let switch = self.switch_to(place, set_aside.is_some());
                (set_aside, Some(switch), switch.level)
            }
        };
        let rate = self.table.rate(level);
        let job = self.pending[place].number;
        let ending = self.run(place, rate);
        Ok(Tick::Busy(BusyTick {
            job,
            set_aside,
            switch,
            rate,
            ending,
        }))
    }

    fn pass_tick(&mut self) {
        self.trace.tick();
        self.clock += 1;
    }

    /// The place of the job to run: the earliest deadline, then the lowest number.
    fn first_pending(&self) -> Option<usize> {
        let in_order = |&place: &usize| (self.pending[place].deadline, self.pending[place].number);
        (0..self.pending.len()).min_by_key(in_order)
    }

    /// Sets the job aside that ran in the tick before, if it is not over.
    fn set_running_aside(&mut self) -> Option<u32> {
        for job in &mut self.pending {
            if let Stage::Running { bound, .. } = job.stage {
                let since = self.clock;
                job.stage = Stage::SetAside { bound, since };
                self.trace.write(Kind::SetAside, job.number);
                return Some(job.number);
            }
        }
        None
    }

    fn switch_to(&mut self, place: usize, one_set_aside: bool) -> Switch {
        let job = &self.pending[place];
        let resumed = matches!(job.stage, Stage::SetAside { .. });
        let bound = self.new_bound(job, one_set_aside);
        let ticks = bound - self.clock;
        let level = self
            .policy
            .level(&self.table, job.remaining, ticks)
            .expect("a bound leaves time for what remains at the top rate");
        let started = if resumed {
            Kind::Resumed
        } else {
            Kind::Started
        };
        self.trace.write(started, job.number);
        self.trace.write(Kind::Level, level as u32);
        self.trace.write(Kind::Bound, bound);
        self.pending[place].stage = Stage::Running { level, bound };
        Switch {
            resumed,
            level,
            bound,
        }
    }

    /// The bound of a job that takes over. A job that comes back is put off by
    /// what its followers were granted since it was set aside. A job that
    /// starts may begin at the handed bound, unless that has gone by or comes
    /// from a job that was less urgent; it never may when it cuts in.
    fn new_bound(&self, job: &Job, one_set_aside: bool) -> u32 {
        if let Stage::SetAside { bound, since } = job.stage {
            bound + self.handed_bound - since
        } else if one_set_aside
            || self.handed_deadline > job.deadline
            || self.handed_bound < self.clock
        {
            self.clock + job.budget
        } else {
            self.handed_bound + job.budget
        }
    }

    /// Has the job rendered for this tick, and ends it if it is over.
    fn run(&mut self, place: usize, rate: u32) -> Option<Ending> {
        let job = &mut self.pending[place];
        let answer = self.renderer.run(job.number, rate);
        job.remaining = job.remaining.saturating_sub(rate);
        let ending = match answer {
            Answer::Finished => Some(Ending::Finished),
            Answer::Failed(code) => Some(Ending::Failed(code)),
            Answer::Running if job.remaining == 0 => Some(Ending::Cut),
            Answer::Running => None,
        };
        self.pass_tick();
        if let Some(ending) = ending {
            self.end(place, ending);
        }
        ending
    }

    fn end(&mut self, place: usize, ending: Ending) {
        let job = self.pending.remove(place);
        let Stage::Running { bound, .. } = job.stage else {
            unreachable!("a job that has just run is running");
        };
        self.handed_bound = bound;
        self.handed_deadline = job.deadline;
        match ending {
            Ending::Finished => self.trace.write(Kind::Finished, job.number),
            Ending::Cut => self.trace.write(Kind::Cut, job.number),
            Ending::Failed(code) => {
                self.trace.write(Kind::Failed, job.number);
                self.trace.write(Kind::Code, u32::from(code));
            }
        }
    }
}
