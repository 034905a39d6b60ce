//! The cell reading of one device: eighteen counts of 100 microvolts, and the extremes among them.

use crate::numbers::{self, require};
use crate::reader::{READ, SILENT};

pub const CELLS: usize = 18;
const CELLS_OF_GROUP: usize = 3;
const GROUPS: usize = 6;
const CLEARED: u16 = 65_535;

/// Bit c - 1 of `valid` and of `unmeasured` speaks of cell c; a cell whose group was not read is neither.
#[derive(Clone, Copy, Debug, PartialEq, Eq)]
pub struct Readings {
    pub number: u8,
    pub counts: [u16; CELLS],
    pub valid: u32,
    pub unmeasured: u32,
}

/// Cell numbers count from 1.
#[derive(Clone, Copy, Debug, PartialEq, Eq)]
pub struct Extremes {
    pub lowest_cell: u8,
    pub lowest: u16,
    pub highest_cell: u8,
    pub highest: u16,
}

/// The counts, valid bits and unmeasured bits from the 36 bytes of CVA to CVF and their six marks.
pub fn cells(groups: &[u8], marks: &[u8]) -> Readings {
    let mut readings = Readings {
        number: numbers::DONE,
        counts: [0; CELLS],
        valid: 0,
        unmeasured: 0,
    };
    if let Err(number) = lent(groups, marks) {
        readings.number = number;
        return readings;
    }
    for (before, pair) in groups.chunks_exact(2).enumerate() {
        if marks[before / CELLS_OF_GROUP] == READ {
            match u16::from_le_bytes([pair[0], pair[1]]) {
                CLEARED => readings.unmeasured |= 1 << before,
                count => {
                    readings.counts[before] = count;
                    readings.valid |= 1 << before;
                }
            }
        }
    }
    readings
}

fn lent(groups: &[u8], marks: &[u8]) -> Result<(), u8> {
    let lengths = groups.len() == 2 * CELLS && marks.len() == GROUPS;
    let known = marks.iter().all(|mark| *mark <= SILENT);
    require(lengths && known, numbers::LENT_WRONG)
}

/// The lowest and the highest valid cell, of equals the one with the lowest number.
pub fn extremes(counts: &[u16; CELLS], valid: u32) -> Option<Extremes> {
    let mut found: Option<Extremes> = None;
    for (cell, count) in (1..).zip(*counts) {
        if (valid >> (cell - 1)) & 1 == 1 {
            found = Some(widened(found, cell, count));
        }
    }
    found
}

fn widened(found: Option<Extremes>, cell: u8, count: u16) -> Extremes {
    let mut extremes = found.unwrap_or(Extremes {
        lowest_cell: cell,
        lowest: count,
        highest_cell: cell,
        highest: count,
    });
    if count < extremes.lowest {
        extremes.lowest_cell = cell;
        extremes.lowest = count;
    }
    if count > extremes.highest {
        extremes.highest_cell = cell;
        extremes.highest = count;
    }
    extremes
}
