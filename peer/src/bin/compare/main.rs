//! Plays many inputs through a program under test and through the rules as
//! written in this package, and stops at the first difference.
//!
//! `compare PROGRAM [COUNT [START]]` tries a sheet checker: first a fixed list
//! of inputs, then COUNT random ones, the first made from the number START.
//! `compare dayplay PROGRAM [COUNT [START]]` tries a script player likewise.

mod contest;
mod inputs;
mod scripts;
mod sheets;

use std::env;
use std::path::PathBuf;
use std::process::ExitCode;

use contest::Contest;
use inputs::Inputs;

const USAGE: &str = "usage: compare [dayplay] PROGRAM [COUNT [START]]";
const DEFAULT_COUNT: usize = 20_000;
const DEFAULT_START: u64 = 1;

fn main() -> ExitCode {
    let arguments: Vec<String> = env::args().skip(1).collect();
    let Some(contest) = contest_from(&arguments) else {
        eprintln!("{USAGE}");
        return ExitCode::from(2);
    };
    match contest.hold() {
        Ok(count) => {
            println!("{count} inputs, no difference");
            ExitCode::SUCCESS
        }
        Err(difference) => {
            println!("{difference}");
            ExitCode::FAILURE
        }
    }
}

/// What the arguments ask for, if they make sense.
fn contest_from(arguments: &[String]) -> Option<Contest> {
    let scripted = arguments.first().is_some_and(|first| first == "dayplay");
    let (program, numbers) = arguments[usize::from(scripted)..].split_first()?;
    let count = numbers
        .first()
        .map_or(Ok(DEFAULT_COUNT), |text| text.parse());
    let start = numbers
        .get(1)
        .map_or(Ok(DEFAULT_START), |text| text.parse());
    let (count, start) = (count.ok()?, start.ok()?);
    if numbers.len() > 2 {
        return None;
    }
    let (fixed, random, peer): (_, inputs::MakeRandom, contest::Peer) = if scripted {
        (scripts::fixed(), scripts::random, peer::dayplay::report)
    } else {
        (sheets::fixed(), sheets::random, peer::sheetcheck::report)
    };
    Some(Contest {
        program: PathBuf::from(program),
        peer,
        inputs: Inputs {
            fixed,
            random,
            count,
            start,
        },
    })
}
