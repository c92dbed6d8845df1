//! The run that a day is measured against: the same jobs by earliest deadline,
//! each using up its whole budget at the top rate, and nothing slowed down or
//! over early.

/// The run so far; job number n stands at place n - 1.
#[derive(Default)]
pub struct ReferenceRun {
    clock: u32,
    jobs: Vec<ReferenceJob>,
}

#[derive(Clone, Copy, Debug)]
pub struct ReferenceJob {
    pub release: u32,
    pub deadline: u32,
    pub budget: u32,
    /// Ticks of the budget that are left.
    pub left: u32,
    /// The clock at which none was left.
    pub end: Option<u32>,
}

impl ReferenceRun {
    pub fn new() -> ReferenceRun {
        ReferenceRun::default()
    }

    pub fn clock(&self) -> u32 {
        self.clock
    }

    pub fn jobs(&self) -> &[ReferenceJob] {
        &self.jobs
    }

    /// The day accepted a job.
    pub fn release(&mut self, deadline: u32, budget: u32) {
        self.jobs.push(ReferenceJob {
            release: self.clock,
            deadline,
            budget,
            left: budget,
            end: None,
        });
    }

    /// The day accepted a tick.
    pub fn tick(&mut self) {
        self.clock += 1;
        // The first of several minima is found, so ties go to the lower number.
        let unfinished = self.jobs.iter_mut().filter(|job| job.left > 0);
        if let Some(job) = unfinished.min_by_key(|job| job.deadline) {
            job.left -= 1;
            if job.left == 0 {
                job.end = Some(self.clock);
            }
        }
    }
}
