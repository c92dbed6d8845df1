//! The surtitle box's rules a second time, in plain Rust.
//!
//! Nothing here is shared with the verified programs: both sides were written
//! from the same rules, so that a misreading on one side shows up as a
//! difference. The `compare` program looks for such differences.

pub mod day;
pub mod dayplay;
pub mod loading;
pub mod policy;
pub mod program;
pub mod random;
pub mod rates;
pub mod reference;
pub mod renderer;
pub mod script;
pub mod sheet;
pub mod sheetcheck;
pub mod trace;
pub mod word;
