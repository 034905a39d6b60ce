//! The numbers a call can come back with, and the rule for the chain size that most calls begin with.

pub const DONE: u8 = 0;
pub const CHAIN_SIZE: u8 = 1;
pub const UNKNOWN_COMMAND: u8 = 2;
pub const LENT_WRONG: u8 = 3;
pub const COMMAND_PEC: u8 = 4;
pub const OUTPUT_SHORT: u8 = 5;
pub const FRAME_LENGTH: u8 = 6;
pub const NO_READ: u8 = 7;
pub const TALLY_FULL: u8 = 8;
pub const OUT_OF_RANGE: u8 = 9;
pub const LOG_BROKEN: u8 = 10;
pub const LOG_LIMITS: u8 = 11;

/// The chain size as a length, or the refusal of a size outside 1 to 16.
pub fn devices(n: u32) -> Result<usize, u8> {
    match n {
        1..=16 => Ok(n as usize),
        _ => Err(CHAIN_SIZE),
    }
}

/// Refuses with `number` unless `holds`.
pub fn require(holds: bool, number: u8) -> Result<(), u8> {
    if holds {
        Ok(())
    } else {
        Err(number)
    }
}
