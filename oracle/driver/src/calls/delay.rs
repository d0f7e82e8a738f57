//! The working delay and the due second: the Rust's delay timer, and what it means by documents 01 and 02. `wdelay`, `due`,
//! and by the number that document 01 had `wdelay30`, `due30`.

use meshcop::dataset::TLV_DELAY_TIMER;

use super::value;
use crate::answer::{Answer, Refusal};
use crate::framed;

/// The delays where there is no delay timer, in milliseconds.
pub const FIVE_MINUTES: u32 = 300_000;
pub const HALF_A_MINUTE: u32 = 30_000;

const LATEST_NOW: u64 = (1 << 48) - 1;

pub fn wdelay(without_timer: u32, bytes: &[u8]) -> Answer {
    value(working_delay(without_timer, bytes)?.to_string())
}

pub fn due(without_timer: u32, bytes: &[u8], now: u64) -> Answer {
    let delay = working_delay(without_timer, bytes)?;
    if now > LATEST_NOW {
        return Err(Refusal::at(14, 0));
    }
    value((now + u64::from(delay.div_ceil(1_000))).to_string())
}

/// Refusals 1, 2, 3, then 4 of the last delay timer, or the milliseconds.
fn working_delay(without_timer: u32, bytes: &[u8]) -> Result<u32, Refusal> {
    let read = framed::read_dataset(bytes)?;
    match read.dataset.delay_timer() {
        Ok(delay) => Ok(delay.unwrap_or(without_timer)),
        Err(_) => {
            let last = read.last(TLV_DELAY_TIMER).expect("the Rust found one that does not fit");
            Err(Refusal::at(4, last.start))
        }
    }
}
