//! Calls on curves: windows as pairs of numbers, start and end; a window (s, e) covers the ticks s to e - 1.
use crate::{accepted, raw, Refusal};

/// Adds up two curves: the ticks at which work is done when each tick of either brings one unit. Writes the result to the front of `out`, and answers
/// how many numbers it has. Refuses 10, 11.
pub fn add(a: &[u32], b: &[u32], out: &mut [u32]) -> Result<usize, Refusal> {
    let mut count = 0;
    // SAFETY: each pointer and length is of one slice; `out` and `count` are borrowed for this call alone.
    let number = unsafe { raw::grod_add(a.as_ptr(), a.len(), b.as_ptr(), b.len(), out.as_mut_ptr(), out.len(), &mut count) };
    accepted(Refusal::without_line(number), count)
}

/// Cuts a curve at the multiples of a period. Writes the result to the front of `out`, and answers how many numbers it has. Refuses 12, 10, 11.
pub fn cut(curve: &[u32], period: u32, out: &mut [u32]) -> Result<usize, Refusal> {
    let mut count = 0;
    // SAFETY: as in `add`.
    let number = unsafe { raw::grod_cut(curve.as_ptr(), curve.len(), period, out.as_mut_ptr(), out.len(), &mut count) };
    accepted(Refusal::without_line(number), count)
}

/// How many numbers fitting wrote: supply left, served, demand left.
#[derive(Clone, Copy, Debug, Default, PartialEq, Eq)]
pub struct Fitted {
    pub left: usize,
    pub served: usize,
    pub rest: usize,
}

/// Fits a demand into a supply. Writes what is left of the supply, what is served and what is left of the demand, each to the front of a buffer of its own.
/// Refuses 10, 11.
pub fn fit(demand: &[u32], supply: &[u32], left: &mut [u32], served: &mut [u32], rest: &mut [u32]) -> Result<Fitted, Refusal> {
    let mut n = Fitted::default();
    // SAFETY: each pointer and length is of one slice; what is written is borrowed for this call alone.
    let number = unsafe {
        raw::grod_fit(
            demand.as_ptr(),
            demand.len(),
            supply.as_ptr(),
            supply.len(),
            left.as_mut_ptr(),
            left.len(),
            served.as_mut_ptr(),
            served.len(),
            rest.as_mut_ptr(),
            rest.len(),
            &mut n.left,
            &mut n.served,
            &mut n.rest,
        )
    };
    accepted(Refusal::without_line(number), n)
}

/// The instant at which a curve has given `amount` ticks, or `None` if it gives fewer. Refuses 12, 10.
pub fn time_to_provide(curve: &[u32], amount: u32) -> Result<Option<u32>, Refusal> {
    let mut instant = 0;
    // SAFETY: the pointer and length are of one slice; `instant` is borrowed for this call alone.
    let number = unsafe { raw::grod_time_to_provide(curve.as_ptr(), curve.len(), amount, &mut instant) };
    // an amount is at least 1, so the instant is never 0
    accepted(Refusal::without_line(number), Some(instant).filter(|&at| at != 0))
}
