//! Policies: who chooses the level a job runs at. Given the units that remain
//! and the ticks to do them in, a policy answers a level fast enough for that,
//! and none exactly when even the top level is too slow.

use crate::rates::RateTable;

pub trait Policy {
    /// A level that does the remaining units in these ticks, numbered from 1.
    fn level(&mut self, table: &RateTable, remaining: u32, ticks: u32) -> Option<usize>;
}

/// Whether a level does so many units in so many ticks.
pub fn is_enough(table: &RateTable, level: usize, remaining: u32, ticks: u32) -> bool {
    u64::from(table.rate(level)) * u64::from(ticks) >= u64::from(remaining)
}

/// The lowest level that is enough.
pub struct Least;

impl Policy for Least {
    fn level(&mut self, table: &RateTable, remaining: u32, ticks: u32) -> Option<usize> {
        (1..=table.top_level()).find(|&level| is_enough(table, level, remaining, ticks))
    }
}

/// The top level, if that is enough.
pub struct Top;

impl Policy for Top {
    fn level(&mut self, table: &RateTable, remaining: u32, ticks: u32) -> Option<usize> {
        let top = table.top_level();
        is_enough(table, top, remaining, ticks).then_some(top)
    }
}

/// Another policy's answer, but no lower than a fixed level, or than the top
/// one if there is no such level.
pub struct Floor<P> {
    pub level: usize,
    pub inner: P,
}

impl<P: Policy> Policy for Floor<P> {
    fn level(&mut self, table: &RateTable, remaining: u32, ticks: u32) -> Option<usize> {
        let inner = self.inner.level(table, remaining, ticks)?;
        Some(inner.max(self.level.min(table.top_level())))
    }
}
