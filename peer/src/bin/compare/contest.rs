//! A contest between a program and the peer: both get every input, on two
//! threads, and must print the same.

use std::fmt;
use std::io::{self, Write};
use std::path::PathBuf;
use std::process::{Command, Output, Stdio};
use std::sync::Mutex;
use std::sync::atomic::{AtomicUsize, Ordering};
use std::thread;

use peer::word::whole_words;

use crate::inputs::Inputs;

const THREADS: usize = 2;

/// What the program should print for an input.
pub type Peer = fn(&[u8]) -> String;

pub struct Contest {
    pub program: PathBuf,
    pub peer: Peer,
    pub inputs: Inputs,
}

/// An input that the two sides do not agree on.
pub struct Difference {
    place: usize,
    name: String,
    input: Vec<u8>,
    program_said: String,
    peer_said: String,
}

impl Contest {
    /// Tries all inputs and tells how many there were, or the first difference.
    pub fn hold(&self) -> Result<usize, Difference> {
        let next = AtomicUsize::new(0);
        let found = Mutex::new(Vec::new());
        thread::scope(|scope| {
            for _ in 0..THREADS {
                scope.spawn(|| self.take_turns(&next, &found));
            }
        });
        let found = found
            .into_inner()
            .expect("no thread panics while it holds the list");
        match found
            .into_iter()
            .min_by_key(|difference: &Difference| difference.place)
        {
            Some(difference) => Err(difference),
            None => Ok(self.inputs.len()),
        }
    }

    /// Tries inputs nobody has taken yet, until one shows a difference.
    fn take_turns(&self, next: &AtomicUsize, found: &Mutex<Vec<Difference>>) {
        loop {
            let place = next.fetch_add(1, Ordering::Relaxed);
            if place >= self.inputs.len() {
                return;
            }
            if let Some(difference) = self.difference(place) {
                next.store(self.inputs.len(), Ordering::Relaxed);
                found
                    .lock()
                    .expect("no thread panics while it holds the list")
                    .push(difference);
            }
        }
    }

    fn difference(&self, place: usize) -> Option<Difference> {
        let input = self.inputs.get(place);
        let peer_said = (self.peer)(&input);
        let program_said = match self.run_program(&input) {
            Ok(output) if output.status.success() && output.stdout == peer_said.as_bytes() => {
                return None;
            }
            Ok(output) => {
                format!(
                    "{}({})",
                    String::from_utf8_lossy(&output.stdout),
                    output.status
                )
            }
            Err(error) => format!("(cannot be run: {error})"),
        };
        let name = self.inputs.name(place);
        Some(Difference {
            place,
            name,
            input,
            program_said,
            peer_said,
        })
    }

    /// The program need not read all of its input, so that a closed pipe is no
    /// fault; the input goes in from a thread of its own, so that neither side
    /// waits for the other.
    fn run_program(&self, input: &[u8]) -> io::Result<Output> {
        let mut child = Command::new(&self.program)
            .stdin(Stdio::piped())
            .stdout(Stdio::piped())
            .spawn()?;
        let stdin = child.stdin.take();
        thread::scope(|scope| {
            scope.spawn(|| stdin.map(|mut pipe| pipe.write_all(input)));
            child.wait_with_output()
        })
    }
}

impl fmt::Display for Difference {
    fn fmt(&self, f: &mut fmt::Formatter<'_>) -> fmt::Result {
        let (words, _) = whole_words(&self.input);
        writeln!(
            f,
            "difference at {}, {} bytes:",
            self.name,
            self.input.len()
        )?;
        for word in &words {
            write!(f, "{:08X} ", word.0)?;
        }
        for byte in self.input.iter().skip(4 * words.len()) {
            write!(f, "{byte:02X}")?;
        }
        writeln!(f, "\nthe program says:\n{}", self.program_said)?;
        write!(f, "the peer says:\n{}", self.peer_said)
    }
}
