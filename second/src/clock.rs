//! Clocks, in milliseconds since 1.1.1970, and expiries, in seconds.

use crate::refusal::Refusal;

/// The last millisecond of the last second that an expiry can name.
pub const LAST_CLOCK: u64 = 4_294_967_295_999;

/// The first millisecond at which an expiry is reached.
pub fn moment(expiry: u32) -> u64 {
    u64::from(expiry) * 1000
}

pub fn reached(expiry: u32, now: u64) -> bool {
    now >= moment(expiry)
}

/// Judges a clock that a tick brings to an end whose clock is `now`.
pub fn judge(clock: u64, now: u64) -> Result<(), Refusal> {
    if (now..=LAST_CLOCK).contains(&clock) {
        Ok(())
    } else {
        Err(Refusal::Clock { now })
    }
}
