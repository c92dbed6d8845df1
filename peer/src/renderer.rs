//! Renderers: who does the work. Asked to run a job for one tick at a rate, a
//! renderer answers whether the job goes on, is finished or has failed, and it
//! counts how often it was asked.

use crate::sheet::Cue;
use crate::word::{Kind, PAYLOAD_MAX, Word};

#[derive(Clone, Copy, Debug, PartialEq, Eq)]
pub enum Answer {
    Running,
    Finished,
    Failed(u16),
}

pub trait Renderer {
    /// Runs a job for a tick.
    fn run(&mut self, job: u32, rate: u32) -> Answer;

    /// How many runs it was asked for, or 4,294,967,295 if there were more.
    fn requests(&self) -> u32;
}

/// Answers from a tape, one word for each request, whatever the job.
pub struct Tape {
    words: Vec<Word>,
    requests: u32,
}

impl Tape {
    pub fn new(words: Vec<Word>) -> Tape {
        Tape { words, requests: 0 }
    }
}

impl Renderer for Tape {
    fn run(&mut self, _job: u32, _rate: u32) -> Answer {
        let word = self.words.get(self.requests as usize);
        self.requests = self.requests.saturating_add(1);
        match word.map(|word| (word.kind(), word.payload())) {
            Some((Kind::Finished, _)) => Answer::Finished,
            // Of the payload only the low sixteen bits are the code.
            Some((Kind::Failed, payload)) => Answer::Failed(payload as u16),
            _ => Answer::Running,
        }
    }

    fn requests(&self) -> u32 {
        self.requests
    }
}

/// Renders the cues of a sheet: a job is finished when the rates it ran at sum
/// up to the units its cue really takes. Never, if those are 0 or there is no
/// such cue.
pub struct SheetRenderer {
    jobs: Vec<Progress>,
    requests: u32,
}

struct Progress {
    units: u32,
    done: u32,
}

impl SheetRenderer {
    /// Jobs are numbered by the release of their cues, then by their places.
    pub fn new(cues: &[Cue]) -> SheetRenderer {
        let mut by_release = cues.to_vec();
        by_release.sort_by_key(|cue| cue.release);
        let progress = |cue: &Cue| Progress {
            units: cue.units,
            done: 0,
        };
        SheetRenderer {
            jobs: by_release.iter().map(progress).collect(),
            requests: 0,
        }
    }
}

impl Renderer for SheetRenderer {
    fn run(&mut self, job: u32, rate: u32) -> Answer {
        self.requests = self.requests.saturating_add(1);
        let place = (job as usize).wrapping_sub(1);
        let Some(progress) = self.jobs.get_mut(place) else {
            return Answer::Running;
        };
        progress.done = progress.done.saturating_add(rate).min(PAYLOAD_MAX);
        if progress.units > 0 && progress.done >= progress.units {
            Answer::Finished
        } else {
            Answer::Running
        }
    }

    fn requests(&self) -> u32 {
        self.requests
    }
}
