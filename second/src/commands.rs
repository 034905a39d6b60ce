//! The one table of 26 commands: code, name in the data sheet, kind and register group. Beside it the conversions.

use crate::conversions;
use crate::groups::{COMMAND_GROUP, DATA_GROUP};

#[derive(Clone, Copy, Debug, PartialEq, Eq)]
pub enum Kind {
    Write,
    Read,
    Clear,
    Convert,
}

/// A clear reaches from group `first` to group `last`; of a write or read both are its one group, and a conversion has none.
#[derive(Clone, Copy, Debug, PartialEq, Eq)]
pub struct Command {
    pub code: u16,
    pub name: &'static str,
    pub kind: Kind,
    pub first: usize,
    pub last: usize,
}

pub const COMMANDS: [Command; 26] = [
    write(0x001, "WRCFGA", 0),
    read(0x002, "RDCFGA", 0),
    read(0x004, "RDCVA", 2),
    read(0x006, "RDCVB", 3),
    read(0x008, "RDCVC", 4),
    read(0x009, "RDCVE", 6),
    read(0x00A, "RDCVD", 5),
    read(0x00B, "RDCVF", 7),
    read(0x00C, "RDAUXA", 8),
    read(0x00D, "RDAUXC", 10),
    read(0x00E, "RDAUXB", 9),
    read(0x00F, "RDAUXD", 11),
    read(0x010, "RDSTATA", 12),
    read(0x012, "RDSTATB", 13),
    write(0x014, "WRSCTRL", 15),
    read(0x016, "RDSCTRL", 15),
    write(0x01C, "WRPSB", 17),
    read(0x01E, "RDPSB", 17),
    write(0x020, "WRPWM", 16),
    read(0x022, "RDPWM", 16),
    write(0x024, "WRCFGB", 1),
    read(0x026, "RDCFGB", 1),
    clear(0x711, "CLRCELL", 2, 7),
    clear(0x712, "CLRAUX", 8, 11),
    write(0x721, "WRCOMM", 14),
    read(0x722, "RDCOMM", 14),
];

const fn write(code: u16, name: &'static str, group: usize) -> Command {
    row(code, name, Kind::Write, group, group)
}

const fn read(code: u16, name: &'static str, group: usize) -> Command {
    row(code, name, Kind::Read, group, group)
}

const fn clear(code: u16, name: &'static str, first: usize, last: usize) -> Command {
    row(code, name, Kind::Clear, first, last)
}

const fn row(code: u16, name: &'static str, kind: Kind, first: usize, last: usize) -> Command {
    Command {
        code,
        name,
        kind,
        first,
        last,
    }
}

/// The row of `code`, or the conversion that it starts.
pub fn find(code: u32) -> Option<Command> {
    COMMANDS
        .into_iter()
        .find(|command| u32::from(command.code) == code)
        .or_else(|| conversion(code))
}

fn conversion(code: u32) -> Option<Command> {
    let name = conversions::name(code)?;
    Some(row(code as u16, name, Kind::Convert, 0, 0))
}

impl Command {
    /// Bytes that its frame has on a chain of `devices`.
    pub(crate) fn frame_length(&self, devices: usize) -> usize {
        match self.kind {
            Kind::Write | Kind::Read => COMMAND_GROUP + DATA_GROUP * devices,
            Kind::Clear | Kind::Convert => COMMAND_GROUP,
        }
    }
}
