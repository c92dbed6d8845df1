//! Scripts for a day: the edition word, the rates, the calls to make, an end
//! word that counts the words of the answer tape, and that tape. A deadline and
//! a budget word make a release; an amount word makes that many ticks.

use crate::word::{EDITION, Kind, Reader, Unexpected, Word, whole_words};

/// The most ticks a script may ask for in all.
pub const TICKS_MAX: u32 = 1_000_000;

#[derive(Clone, Copy, Debug, PartialEq, Eq)]
pub enum Call {
    Release { deadline: u32, budget: u32 },
    Ticks(u32),
}

#[derive(Clone, Debug, PartialEq, Eq)]
pub struct Script {
    /// As they stand in the script, whether or not they make a table.
    pub rates: Vec<u32>,
    pub calls: Vec<Call>,
    pub tape: Vec<Word>,
}

/// The place of the first word that is wrong or missing, counted from 0.
#[derive(Clone, Copy, Debug, PartialEq, Eq)]
pub struct WrongAt(pub usize);

impl From<Unexpected> for WrongAt {
    fn from(unexpected: Unexpected) -> WrongAt {
        match unexpected {
            Unexpected::Wrong(place) | Unexpected::Missing(place) => WrongAt(place),
        }
    }
}

impl Script {
    pub fn from_bytes(bytes: &[u8]) -> Result<Script, WrongAt> {
        let (words, part_left) = whole_words(bytes);
        let script = Script::from_words(&words)?;
        if part_left {
            return Err(WrongAt(words.len()));
        }
        Ok(script)
    }

    /// Reads a script that is exactly these words.
    pub fn from_words(words: &[Word]) -> Result<Script, WrongAt> {
        let mut reader = Reader::new(words);
        reader.take_edition()?;
        let rates = reader.take_rates()?;
        let calls = read_calls(&mut reader)?;
        let tape_length = reader.take(Kind::End)? as usize;
        let tape = reader.rest().to_vec();
        if tape.len() != tape_length {
            return Err(WrongAt(reader.place() + tape.len().min(tape_length)));
        }
        Ok(Script { rates, calls, tape })
    }

    /// The words of a file with this script.
    pub fn words(&self) -> Vec<Word> {
        let mut words = vec![EDITION];
        words.extend(self.rates.iter().map(|&rate| Word::new(Kind::Rate, rate)));
        for call in &self.calls {
            match *call {
                Call::Release { deadline, budget } => {
                    words.push(Word::new(Kind::Deadline, deadline));
                    words.push(Word::new(Kind::Budget, budget));
                }
                Call::Ticks(count) => words.push(Word::new(Kind::Amount, count)),
            }
        }
        words.push(Word::new(Kind::End, self.tape.len() as u32));
        words.extend(&self.tape);
        words
    }
}

/// Takes calls up to a word that begins none.
fn read_calls(reader: &mut Reader) -> Result<Vec<Call>, WrongAt> {
    let mut calls = Vec::new();
    let mut ticks_left = TICKS_MAX;
    loop {
        match reader.next_kind()? {
            Kind::Deadline => calls.push(Call::Release {
                deadline: reader.take(Kind::Deadline)?,
                budget: reader.take(Kind::Budget)?,
            }),
            Kind::Amount => {
                let place = reader.place();
                let count = reader.take(Kind::Amount)?;
                ticks_left = ticks_left.checked_sub(count).ok_or(WrongAt(place))?;
                calls.push(Call::Ticks(count));
            }
            _ => return Ok(calls),
        }
    }
}
