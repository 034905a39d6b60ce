//! The frame writer: from a command and host data in device order to the bytes on the wire.

use crate::commands::{self, Command, Kind};
use crate::groups::{command_group, seal, COMMAND_GROUP, DATA, DATA_GROUP, SILENCE};
use crate::numbers::{self, require};

#[derive(Clone, Copy, Debug, PartialEq, Eq)]
pub struct Written {
    pub number: u8,
    pub length: usize,
}

/// Writes the frame of `code` for a chain of `n` to the head of `out`.
pub fn write(n: u32, code: u32, data: &[u8], out: &mut [u8]) -> Written {
    match plan(n, code, data.len(), out.len()) {
        Ok((command, length)) => {
            fill(command, data, &mut out[..length]);
            Written {
                number: numbers::DONE,
                length,
            }
        }
        Err(number) => Written { number, length: 0 },
    }
}

fn plan(n: u32, code: u32, given: usize, room: usize) -> Result<(Command, usize), u8> {
    let devices = numbers::devices(n)?;
    let command = commands::find(code).ok_or(numbers::UNKNOWN_COMMAND)?;
    let wanted = match command.kind {
        Kind::Write => DATA * devices,
        Kind::Read | Kind::Clear | Kind::Convert => 0,
    };
    require(given == wanted, numbers::LENT_WRONG)?;
    let length = command.frame_length(devices);
    require(room >= length, numbers::OUTPUT_SHORT)?;
    Ok((command, length))
}

fn fill(command: Command, data: &[u8], frame: &mut [u8]) {
    let (head, body) = frame.split_at_mut(COMMAND_GROUP);
    head.copy_from_slice(&command_group(command.code));
    body.fill(SILENCE);
    let from_last_device = data.chunks_exact(DATA).rev();
    for (bytes, group) in from_last_device.zip(body.chunks_exact_mut(DATA_GROUP)) {
        seal(bytes, group);
    }
}
