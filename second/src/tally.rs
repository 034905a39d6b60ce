//! The link tally: replies and groups read, wrong and silent, counted over the life of a link.

use crate::numbers::{self, require};
use crate::reader::{READ, SILENT, WRONG};

#[derive(Clone, Copy, Debug, Default, PartialEq, Eq)]
pub struct Tally {
    pub replies: u32,
    pub read: u32,
    pub wrong: u32,
    pub silent: u32,
}

/// Adds the marks of one reply, or changes nothing.
pub fn add(tally: &mut Tally, marks: &[u8]) -> u8 {
    match raised(*tally, marks) {
        Ok(sum) => {
            *tally = sum;
            numbers::DONE
        }
        Err(number) => number,
    }
}

fn raised(tally: Tally, marks: &[u8]) -> Result<Tally, u8> {
    require((1..=16).contains(&marks.len()), numbers::CHAIN_SIZE)?;
    let known = marks.iter().all(|mark| *mark <= SILENT);
    require(known, numbers::LENT_WRONG)?;
    sum(tally, marks).ok_or(numbers::TALLY_FULL)
}

fn sum(tally: Tally, marks: &[u8]) -> Option<Tally> {
    Some(Tally {
        replies: tally.replies.checked_add(1)?,
        read: tally.read.checked_add(count(marks, READ))?,
        wrong: tally.wrong.checked_add(count(marks, WRONG))?,
        silent: tally.silent.checked_add(count(marks, SILENT))?,
    })
}

fn count(marks: &[u8], sort: u8) -> u32 {
    marks.iter().map(|mark| u32::from(*mark == sort)).sum()
}
