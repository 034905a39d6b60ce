//! The section of the command table, each row with its command group on the wire.

use crate::page::Page;
use crate::pieces::hex;
use second::commands::{Command, Kind, COMMANDS};
use second::groups::command_group;

/// Rows as document 01 states them, with the wire where a check word is printed too.
const STATED: [&str; 26] = [
    "001 WRCFGA write 0 00013D6E",
    "002 RDCFGA read 0 00022B0A",
    "004 RDCVA read 2 000407C2",
    "006 RDCVB read 3",
    "008 RDCVC read 4",
    "009 RDCVE read 6",
    "00A RDCVD read 5",
    "00B RDCVF read 7",
    "00C RDAUXA read 8",
    "00D RDAUXC read 10",
    "00E RDAUXB read 9",
    "00F RDAUXD read 11",
    "010 RDSTATA read 12",
    "012 RDSTATB read 13",
    "014 WRSCTRL write 15",
    "016 RDSCTRL read 15 0016C1BA",
    "01C WRPSB write 17",
    "01E RDPSB read 17",
    "020 WRPWM write 16",
    "022 RDPWM read 16",
    "024 WRCFGB write 1",
    "026 RDCFGB read 1",
    "711 CLRCELL clear 2-7 0711C9C0",
    "712 CLRAUX clear 8-11",
    "721 WRCOMM write 14",
    "722 RDCOMM read 14",
];

pub fn section(page: &mut Page) {
    for (command, stated) in COMMANDS.iter().zip(STATED) {
        page.line("command", &row(command), stated);
    }
}

fn row(command: &Command) -> String {
    let (kind, groups) = match command.kind {
        Kind::Write => ("write", command.first.to_string()),
        Kind::Read => ("read", command.first.to_string()),
        Kind::Clear => ("clear", format!("{}-{}", command.first, command.last)),
        Kind::Convert => ("convert", "-".to_string()),
    };
    let wire = hex(&command_group(command.code));
    let Command { code, name, .. } = command;
    format!("{code:03X} {name} {kind} {groups} {wire}")
}
