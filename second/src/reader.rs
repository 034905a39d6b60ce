//! The host reader: six bytes and a mark for each device of a reply, each device on its own.

use crate::commands::{self, Kind};
use crate::groups::{COMMAND_GROUP, DATA, DATA_GROUP, SILENCE};
use crate::numbers::{self, require};
use crate::pec;

pub const READ: u8 = 0;
pub const WRONG: u8 = 1;
pub const SILENT: u8 = 2;

/// Reads the reply to `code` from a chain of `n` into the heads of `bytes` and `marks`.
pub fn read(n: u32, code: u32, reply: &[u8], bytes: &mut [u8], marks: &mut [u8]) -> u8 {
    let devices = match plan(n, code, reply.len(), bytes.len(), marks.len()) {
        Ok(devices) => devices,
        Err(number) => return number,
    };
    let groups = reply[COMMAND_GROUP..].chunks_exact(DATA_GROUP);
    let places = bytes[..DATA * devices].chunks_exact_mut(DATA);
    for ((group, place), mark) in groups.zip(places).zip(&mut marks[..devices]) {
        *mark = judge(group);
        match *mark {
            READ => place.copy_from_slice(&group[..DATA]),
            _ => place.fill(0),
        }
    }
    numbers::DONE
}

fn plan(n: u32, code: u32, reply: usize, bytes: usize, marks: usize) -> Result<usize, u8> {
    let devices = numbers::devices(n)?;
    let command = commands::find(code).ok_or(numbers::UNKNOWN_COMMAND)?;
    require(command.kind == Kind::Read, numbers::NO_READ)?;
    let length = command.frame_length(devices);
    require(reply == length, numbers::LENT_WRONG)?;
    let room = bytes >= DATA * devices && marks >= devices;
    require(room, numbers::OUTPUT_SHORT)?;
    Ok(devices)
}

fn judge(group: &[u8]) -> u8 {
    if group.iter().all(|byte| *byte == SILENCE) {
        SILENT
    } else if pec::right(group) {
        READ
    } else {
        WRONG
    }
}
