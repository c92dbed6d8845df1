//! The proved functions that can be called from Rust.

/// The allocator, as the proved side takes it: it has no parts.
#[repr(C)]
#[derive(Clone, Copy)]
struct Global {}

#[allow(improper_ctypes)]
unsafe extern "C" {
    fn patchbasalt_load(heap: Global, sheet: *const u8, length: usize, rounds: u32) -> u64;
    fn patchbasalt_ticks(jobs: u32, ticks: u32) -> u32;
}

/// Finds the loading factor of a sheet `rounds` times and gives its demand, or nothing where the sheet cannot be read.
pub fn load(sheet: &[u8], rounds: u32) -> Option<u64> {
    let demand = unsafe { patchbasalt_load(Global {}, sheet.as_ptr(), sheet.len(), rounds) };
    (demand != u64::MAX).then_some(demand)
}

/// Ticks a fresh day with this many jobs, and gives its clock.
pub fn ticks(jobs: u32, ticks: u32) -> u32 {
    unsafe { patchbasalt_ticks(jobs, ticks) }
}
