//! Cue sheets: what is to be rendered in an evening, and when. A sheet is the
//! edition word, the rates, four words for each cue and an end word that counts
//! the cues. Reading stops at the earliest fault and names it.

use std::fmt;

use crate::loading::loading_factor;
use crate::rates::{RateTable, TableFault};
use crate::word::{EDITION, Kind, Reader, Unexpected, Word, whole_words};

pub const BUDGET_MAX: u32 = 65_535;
pub const DEADLINE_MAX: u32 = 134_217_727;
pub const CUES_MAX: usize = 1_024;

/// One surtitle to be rendered: from its release tick on, and by its deadline.
#[derive(Clone, Copy, Debug, PartialEq, Eq)]
pub struct Cue {
    pub release: u32,
    pub deadline: u32,
    /// Ticks at the top rate that rendering takes at the most.
    pub budget: u32,
    /// Units that rendering really takes.
    pub units: u32,
}

#[derive(Clone, Debug, PartialEq, Eq)]
pub struct Sheet {
    rates: RateTable,
    cues: Vec<Cue>,
}

/// How loaded a sheet is.
#[derive(Clone, Copy, Debug, PartialEq, Eq)]
pub struct Assessment {
    /// The loading factor, as (demand, length, start, end).
    pub load: (u32, u32, u32, u32),
    /// Set if the sheet is not admitted.
    pub overload: Option<Fault>,
}

/// What is wrong with a sheet.
#[derive(Clone, Copy, Debug, PartialEq, Eq)]
pub enum Cause {
    LevelCount,
    Rate,
    Budget,
    Deadline,
    WrongWord,
    EndsEarly,
    TooManyCues,
    Overloaded,
}

impl Cause {
    /// The part of reading that noticed: a word, a cue or the whole sheet.
    pub fn layer(self) -> &'static str {
        match self {
            Cause::WrongWord | Cause::EndsEarly => "word",
            Cause::Budget | Cause::Deadline => "cue",
            Cause::LevelCount | Cause::Rate | Cause::TooManyCues | Cause::Overloaded => "sheet",
        }
    }

    pub fn number(self) -> u32 {
        match self {
            Cause::LevelCount => 1,
            Cause::Rate => 2,
            Cause::Budget => 3,
            Cause::Deadline => 4,
            Cause::WrongWord => 9,
            Cause::EndsEarly => 10,
            Cause::TooManyCues => 11,
            Cause::Overloaded => 13,
        }
    }
}

/// What is wrong and at which word, counted from 0.
#[derive(Clone, Copy, Debug, PartialEq, Eq)]
pub struct Fault {
    pub cause: Cause,
    pub place: usize,
}

impl Fault {
    fn new(cause: Cause, place: usize) -> Fault {
        Fault { cause, place }
    }
}

impl From<Unexpected> for Fault {
    fn from(unexpected: Unexpected) -> Fault {
        match unexpected {
            Unexpected::Wrong(place) => Fault::new(Cause::WrongWord, place),
            Unexpected::Missing(place) => Fault::new(Cause::EndsEarly, place),
        }
    }
}

impl fmt::Display for Fault {
    fn fmt(&self, f: &mut fmt::Formatter<'_>) -> fmt::Result {
        let (layer, number) = (self.cause.layer(), self.cause.number());
        write!(f, "{layer} {number} {}", self.place)
    }
}

impl Sheet {
    /// Reads a sheet from the bytes of a file.
    pub fn from_bytes(bytes: &[u8]) -> Result<Sheet, Fault> {
        let (words, part_left) = whole_words(bytes);
        let sheet = Sheet::from_words(&words)?;
        if part_left {
            return Err(Fault::new(Cause::EndsEarly, words.len()));
        }
        Ok(sheet)
    }

    /// Reads a sheet that is exactly these words.
    pub fn from_words(words: &[Word]) -> Result<Sheet, Fault> {
        let mut reader = Reader::new(words);
        reader.take_edition()?;
        let rates = read_table(&mut reader)?;
        let cues = read_cues(&mut reader)?;
        let end_place = reader.place();
        if reader.take(Kind::End)? as usize != cues.len() {
            return Err(Fault::new(Cause::WrongWord, end_place));
        }
        if !reader.rest().is_empty() {
            return Err(Fault::new(Cause::WrongWord, reader.place()));
        }
        Ok(Sheet { rates, cues })
    }

    /// The words of a file with this sheet.
    pub fn words(&self) -> Vec<Word> {
        sheet_words(self.rates.rates(), &self.cues)
    }

    pub fn rates(&self) -> &RateTable {
        &self.rates
    }

    pub fn cues(&self) -> &[Cue] {
        &self.cues
    }

    /// The place of the end word in the sheet's file.
    pub fn end_place(&self) -> usize {
        1 + self.rates.rates().len() + 4 * self.cues.len()
    }

    /// Measures the busiest interval; the sheet is admitted if even there no
    /// more is asked than there is time.
    pub fn assess(&self) -> Assessment {
        let load = loading_factor(&self.cues);
        let (demand, length, _, _) = load;
        let overloaded = || Fault::new(Cause::Overloaded, self.end_place());
        let overload = (demand > length).then(overloaded);
        Assessment { load, overload }
    }
}

/// The words of a file with these rates and cues, whether or not they keep the
/// rules of a sheet.
pub fn sheet_words(rates: &[u32], cues: &[Cue]) -> Vec<Word> {
    let mut words = vec![EDITION];
    words.extend(rates.iter().map(|&rate| Word::new(Kind::Rate, rate)));
    for cue in cues {
        words.extend([
            Word::new(Kind::Release, cue.release),
            Word::new(Kind::Deadline, cue.deadline),
            Word::new(Kind::Budget, cue.budget),
            Word::new(Kind::Amount, cue.units),
        ]);
    }
    words.push(Word::new(Kind::End, cues.len() as u32));
    words
}

/// Takes all rates. The table is judged only when the word after it is there,
/// but before that word is.
fn read_table(reader: &mut Reader) -> Result<RateTable, Fault> {
    let place = reader.place();
    RateTable::new(reader.take_rates()?).map_err(|fault| {
        let cause = match fault {
            TableFault::LevelCount(_) => Cause::LevelCount,
            TableFault::Rate(_) => Cause::Rate,
        };
        Fault::new(cause, place)
    })
}

/// Takes cues up to a word that is not a release, the end word as it should be.
fn read_cues(reader: &mut Reader) -> Result<Vec<Cue>, Fault> {
    let mut cues = Vec::new();
    while reader.next_kind()? == Kind::Release {
        let place = reader.place();
        let cue = Cue {
            release: reader.take(Kind::Release)?,
            deadline: reader.take(Kind::Deadline)?,
            budget: reader.take(Kind::Budget)?,
            units: reader.take(Kind::Amount)?,
        };
        if let Some(cause) = wrong_with_cue(&cue, cues.len()) {
            return Err(Fault::new(cause, place));
        }
        cues.push(cue);
    }
    Ok(cues)
}

/// The cause with the lowest number against a cue that follows so many others.
fn wrong_with_cue(cue: &Cue, cues_before: usize) -> Option<Cause> {
    if !(1..=BUDGET_MAX).contains(&cue.budget) {
        Some(Cause::Budget)
    } else if cue.deadline <= cue.release || cue.deadline > DEADLINE_MAX {
        Some(Cause::Deadline)
    } else if cues_before == CUES_MAX {
        Some(Cause::TooManyCues)
    } else {
        None
    }
}
