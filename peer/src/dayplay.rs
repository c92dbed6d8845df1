//! What the script player prints: a line for each call of a script, the clock
//! and the number of requests at the end, and the trace of the day.

use std::fmt::{self, Write};

use crate::day::{Day, Ending, Refusal, Tick};
use crate::policy::Least;
use crate::rates::RateTable;
use crate::renderer::Tape;
use crate::script::{Call, Script, WrongAt};

/// The words that a day is recorded in.
pub const TRACE_ROOM: usize = 16_384;

/// The player's whole output for an input.
pub fn report(input: &[u8]) -> String {
    match Script::from_bytes(input) {
        Err(WrongAt(place)) => format!("script {place}\n"),
        Ok(script) => play(script).unwrap_or_else(|refusal| format!("{refusal}\n")),
    }
}

/// Plays a script, unless its rates make no table.
fn play(script: Script) -> Result<String, Refusal> {
    let table = RateTable::new(script.rates).map_err(Refusal::Table)?;
    let mut day = Day::open(table, Least, Tape::new(script.tape), TRACE_ROOM)?;
    let mut lines = String::new();
    for call in script.calls {
        match call {
            Call::Release { deadline, budget } => match day.release(deadline, budget) {
                Ok(number) => line(&mut lines, format_args!("release {number}")),
                Err(refusal) => line(&mut lines, refusal),
            },
            Call::Ticks(count) => {
                for _ in 0..count {
                    match day.tick() {
                        Ok(tick) => line(&mut lines, tick),
                        Err(refusal) => line(&mut lines, refusal),
                    }
                }
            }
        }
    }
    let (clock, requests) = (day.clock(), day.requests());
    line(
        &mut lines,
        format_args!("clock {clock} requests {requests}"),
    );
    for word in day.close() {
        line(&mut lines, format_args!("{:08X}", word.0));
    }
    Ok(lines)
}

fn line(lines: &mut String, text: impl fmt::Display) {
    writeln!(lines, "{text}").expect("a string takes any text");
}

impl fmt::Display for Tick {
    fn fmt(&self, f: &mut fmt::Formatter<'_>) -> fmt::Result {
        let Tick::Busy(busy) = self else {
            return f.write_str("idle");
        };
        write!(f, "job {}", busy.job)?;
        if let Some(other) = busy.set_aside {
            write!(f, " aside {other}")?;
        }
        if let Some(switch) = busy.switch {
            let verb = if switch.resumed { "resume" } else { "start" };
            write!(f, " {verb} level {} bound {}", switch.level, switch.bound)?;
        }
        write!(f, " rate {}", busy.rate)?;
        match busy.ending {
            None => f.write_str(" running"),
            Some(Ending::Finished) => f.write_str(" finished"),
            Some(Ending::Cut) => f.write_str(" cut"),
            Some(Ending::Failed(code)) => write!(f, " failed {code}"),
        }
    }
}
