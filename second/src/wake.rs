//! The wake rule: how long to wait after waking a chain whose port may have gone idle.

use crate::numbers;

const SHORTEST_IDLE: u32 = 4_300;
const READY: u32 = 10;

#[derive(Clone, Copy, Debug, PartialEq, Eq)]
pub struct Wait {
    pub number: u8,
    pub wait: u32,
}

/// The wait in microseconds, on a clock that runs past its end to 0.
pub fn wake(n: u32, last: u32, now: u32) -> Wait {
    if let Err(number) = numbers::devices(n) {
        return Wait { number, wait: 0 };
    }
    let idle = now.wrapping_sub(last) >= SHORTEST_IDLE;
    Wait {
        number: numbers::DONE,
        wait: if idle { READY * n } else { 0 },
    }
}
