//! The section of the conversion commands: built at the edges of their fields, taken apart, and sent.

use crate::page::Page;
use second::chain::serve;
use second::commands::find;
use second::conversions::{conversion_code, conversion_of};
use second::groups::command_group;
use second::reader::read;
use second::writer::write;

/// A row of 002's Table 36 with the ends that Table 37 gives its fields, and the codes that its pattern has at both.
struct Row {
    name: &'static str,
    most: [u32; 2],
    choice: [u32; 2],
    codes: [u32; 2],
}

const fn row(name: &'static str, most: [u32; 2], choice: [u32; 2], codes: [u32; 2]) -> Row {
    Row {
        name,
        most,
        choice,
        codes,
    }
}

/// `most` has the highest DCP and PUP, 0 where a command has none.
const ROWS: [Row; 13] = [
    row(
        "ADCV",
        [1, 0],
        [0, 6],
        [0b01_00_110_0_000, 0b01_11_111_0_110],
    ),
    row(
        "ADOW",
        [1, 1],
        [0, 6],
        [0b01_00_010_1_000, 0b01_11_111_1_110],
    ),
    row("CVST", [0, 0], [1, 2], [0b01_00_01_00111, 0b01_11_10_00111]),
    row(
        "ADOL",
        [1, 0],
        [0, 0],
        [0b01_00_00_0_0001, 0b01_11_00_1_0001],
    ),
    row("ADAX", [0, 0], [0, 6], [0b10_00_1100_000, 0b10_11_1100_110]),
    row(
        "ADAXD",
        [0, 0],
        [0, 6],
        [0b10_00_0000_000, 0b10_11_0000_110],
    ),
    row(
        "AXOW",
        [0, 1],
        [0, 6],
        [0b10_00_0_010_000, 0b10_11_1_010_110],
    ),
    row("AXST", [0, 0], [1, 2], [0b10_00_01_00111, 0b10_11_10_00111]),
    row(
        "ADSTAT",
        [0, 0],
        [0, 4],
        [0b10_00_1101_000, 0b10_11_1101_100],
    ),
    row(
        "ADSTATD",
        [0, 0],
        [0, 4],
        [0b10_00_0001_000, 0b10_11_0001_100],
    ),
    row(
        "STATST",
        [0, 0],
        [1, 2],
        [0b10_00_01_01111, 0b10_11_10_01111],
    ),
    row(
        "ADCVAX",
        [1, 0],
        [0, 0],
        [0b10_00_11_0_1111, 0b10_11_11_1_1111],
    ),
    row(
        "ADCVSC",
        [1, 0],
        [0, 0],
        [0b10_00_11_0_0111, 0b10_11_11_1_0111],
    ),
];

/// A command and the four fields.
type Asked = [u32; 5];

const FAR: [Asked; 4] = [
    [13, 0, 0, 0, 0],
    [u32::MAX, 0, 0, 0, 0],
    [1 << 8, 0, 0, 0, 0],
    [0, 1 << 16, 0, 0, 0],
];

const NO_CONVERSIONS: [u32; 20] = [
    0x267, 0x407, 0x40F, 0x207, 0x22F, 0x46D, 0x417, 0x001, 0x711, 0xA60, 0x10260, 0xFFFFFFFF,
    0x715, 0x714, 0x019, 0x018, 0x713, 0x723, 0x028, 0x029,
];

/// Two conversions, a choice out of its range, and DIAGN, PLADC, STSCTRL, CLRSCTRL, CLRSTAT, STCOMM, MUTE and UNMUTE.
const SENT: [(u16, &str); 11] = [
    (0x360, "0 0 0001 7"),
    (0x5FF, "0 0 0001 7"),
    (0x267, "2 2 0000 2"),
    (0x715, "2 2 0000 2"),
    (0x714, "2 2 0000 2"),
    (0x019, "2 2 0000 2"),
    (0x018, "2 2 0000 2"),
    (0x713, "2 2 0000 2"),
    (0x723, "2 2 0000 2"),
    (0x028, "2 2 0000 2"),
    (0x029, "2 2 0000 2"),
];

pub fn section(page: &mut Page) {
    for (command, row) in (0..).zip(&ROWS) {
        edges(page, command, row);
    }
    built(page, [1, 0, 1, 0, 0], "ADOW", 0b01_00_011_1_000);
    built(page, [1, 0, 0, 1, 0], "ADOW", 0b01_00_110_1_000);
    for asked in FAR {
        refused(page, asked);
    }
    for code in NO_CONVERSIONS {
        apart(page, code, "2 0 - 0 0 0 0");
    }
    for (code, stated) in SENT {
        sent(page, code, stated);
    }
}

fn edges(page: &mut Page, command: u32, row: &Row) {
    let ([dcp, pup], [least, most]) = (row.most, row.choice);
    built(page, [command, 0, 0, 0, least], row.name, row.codes[0]);
    built(page, [command, 3, dcp, pup, most], row.name, row.codes[1]);
    refused(page, [command, 4, 0, 0, least]);
    refused(page, [command, 0, dcp + 1, 0, least]);
    refused(page, [command, 0, 0, pup + 1, least]);
    refused(page, [command, 0, 0, 0, most + 1]);
    if least > 0 {
        refused(page, [command, 0, 0, 0, least - 1]);
    }
}

fn built(page: &mut Page, asked: Asked, name: &str, code: u32) {
    let [command, mode, discharge, pull_up, choice] = asked;
    build(page, asked, &format!("0 {code:03X}"));
    let parts = format!("0 {command} {name} {mode} {discharge} {pull_up} {choice}");
    apart(page, code, &parts);
}

fn refused(page: &mut Page, asked: Asked) {
    build(page, asked, "9 000");
}

fn build(page: &mut Page, asked: Asked, stated: &str) {
    let [command, mode, discharge, pull_up, choice] = asked;
    let built = conversion_code(command, mode, discharge, pull_up, choice);
    page.line(
        &format!("build {command} {mode} {discharge} {pull_up} {choice} :"),
        &format!("{} {:03X}", built.number, built.code),
        stated,
    );
}

fn apart(page: &mut Page, code: u32, stated: &str) {
    let taken = conversion_of(code);
    let name = match taken.number {
        0 => find(code).map_or("-", |command| command.name),
        _ => "-",
    };
    page.line(
        &format!("apart {code:03X} :"),
        &format!(
            "{} {} {name} {} {} {} {}",
            taken.number, taken.command, taken.mode, taken.discharge, taken.pull_up, taken.choice
        ),
        stated,
    );
}

fn sent(page: &mut Page, code: u16, stated: &str) {
    let mut frame = [0; 4];
    let (mut state, mut reply) = ([0; 109], [0; 4]);
    let wide = u32::from(code);
    let written = write(1, wide, &[], &mut frame);
    let heard = serve(1, &command_group(code), &mut state, &mut reply);
    let number = read(1, wide, &reply, &mut [0; 6], &mut [0; 1]);
    page.line(
        &format!("sent {code:03X} :"),
        &format!(
            "{} {} {:04X} {number}",
            written.number, heard.number, heard.word
        ),
        stated,
    );
}
