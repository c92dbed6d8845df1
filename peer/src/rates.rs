//! The table of rates the box can run at, in units per tick. A table has 1 to
//! 16 levels and its rates rise; a `RateTable` is only made of rates that do.

pub const LEVELS_MAX: usize = 16;
pub const RATE_MAX: u32 = 4_095;

#[derive(Clone, Debug, PartialEq, Eq)]
pub struct RateTable {
    rates: Vec<u32>,
}

/// Why a list of rates is no table.
#[derive(Clone, Copy, Debug, PartialEq, Eq)]
pub enum TableFault {
    /// No level, or more than sixteen; holds how many.
    LevelCount(usize),
    /// A rate out of range or not above the one before; holds the first such
    /// place, counted from 0.
    Rate(usize),
}

impl RateTable {
    pub fn new(rates: Vec<u32>) -> Result<RateTable, TableFault> {
        if rates.is_empty() || rates.len() > LEVELS_MAX {
            return Err(TableFault::LevelCount(rates.len()));
        }
        let mut below = 0;
        for (place, &rate) in rates.iter().enumerate() {
            // Starting from 0, this also turns down a first rate of 0.
            if rate <= below || rate > RATE_MAX {
                return Err(TableFault::Rate(place));
            }
            below = rate;
        }
        Ok(RateTable { rates })
    }

    /// The rates from the lowest level up.
    pub fn rates(&self) -> &[u32] {
        &self.rates
    }

    /// The rate of a level; levels are numbered from 1.
    pub fn rate(&self, level: usize) -> u32 {
        self.rates[level - 1]
    }

    /// The number of the top level.
    pub fn top_level(&self) -> usize {
        self.rates.len()
    }

    pub fn top_rate(&self) -> u32 {
        self.rate(self.top_level())
    }
}
