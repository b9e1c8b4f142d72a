//! Leaves of the product, opened to the tests by the crate `probe` with figures of any size.

use crate::Plan;

/// A window judged.
#[repr(C)]
#[derive(Clone, Copy, Debug, Default, PartialEq, Eq)]
pub struct WindowProbe {
    pub judged: bool,
    pub inside: bool,
    pub class: usize,
}

extern "C" {
    fn probe_too_lively(s: u32, n: u32, q: u64) -> bool;
    fn probe_too_dull(s: u32, n: u32, t: u64) -> bool;
    fn probe_window(plan: Plan, s: u32, m: u32, n: usize) -> WindowProbe;
}

/// Whether a bin is too lively.
pub fn too_lively(s: u32, n: u32, q: u64) -> bool {
    // Safety: plain numbers go in and come out.
    unsafe { probe_too_lively(s, n, q) }
}

/// Whether a bin is too dull.
pub fn too_dull(s: u32, n: u32, t: u64) -> bool {
    // Safety: plain numbers go in and come out.
    unsafe { probe_too_dull(s, n, t) }
}

/// A window of any sum of speeds, mass and length.
pub fn window(plan: Plan, s: u32, m: u32, n: usize) -> WindowProbe {
    // Safety: plain numbers go in and come out.
    unsafe { probe_window(plan, s, m, n) }
}
