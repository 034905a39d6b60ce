//! The section of the frame writer.

use crate::page::Page;
use crate::pieces::hex;
use second::writer::write;

struct Case {
    n: u32,
    code: u32,
    data: &'static [u8],
    room: usize,
    stated: &'static str,
}

const fn case(n: u32, code: u32, data: &'static [u8], room: usize, stated: &'static str) -> Case {
    Case {
        n,
        code,
        data,
        room,
        stated,
    }
}

const TWO_DEVICES: [u8; 12] = [
    0x01, 0x02, 0x03, 0x04, 0x05, 0x06, 0x11, 0x12, 0x13, 0x14, 0x15, 0x16,
];

const CASES: [Case; 23] = [
    case(1, 0x001, &[0; 6], 12, "0 12 00013D6E000000000000C212"),
    case(
        1,
        0x001,
        &[0; 6],
        16,
        "0 12 00013D6E000000000000C212AAAAAAAA",
    ),
    case(2, 0x001, &TWO_DEVICES, 20, "0 20"),
    case(
        2,
        0x004,
        &[],
        20,
        "0 20 000407C2FFFFFFFFFFFFFFFFFFFFFFFFFFFFFFFF",
    ),
    case(3, 0x711, &[], 4, "0 4 0711C9C0"),
    case(16, 0x712, &[], 6, "0 4"),
    case(0, 0x001, &[0; 6], 12, "1 0"),
    case(17, 0x001, &[], 12, "1 0"),
    case(u32::MAX, 0x001, &[], 0, "1 0"),
    case(1, 0x003, &[0; 6], 12, "2 0"),
    case(1, 0x801, &[0; 6], 12, "2 0"),
    case(1, 0x10001, &[0; 6], 12, "2 0"),
    case(1, 0x001, &[0; 5], 12, "3 0"),
    case(1, 0x001, &[0; 7], 12, "3 0"),
    case(1, 0x002, &[0], 12, "3 0"),
    case(1, 0x711, &[0], 4, "3 0"),
    case(1, 0x001, &[0; 6], 11, "5 0"),
    case(16, 0x001, &[0; 96], 132, "0 132"),
    case(16, 0x001, &[0; 96], 131, "5 0"),
    case(1, 0x711, &[], 3, "5 0"),
    case(0, 0x003, &[0], 0, "1 0"),
    case(1, 0x003, &[0], 0, "2 0"),
    case(1, 0x001, &[0], 0, "3 0"),
];

pub fn section(page: &mut Page) {
    for case in &CASES {
        let mut out = vec![0xAA; case.room];
        let written = write(case.n, case.code, case.data, &mut out);
        let asked = format!(
            "write {} {:03X} {} {} :",
            case.n,
            case.code,
            hex(case.data),
            case.room
        );
        let answer = format!("{} {} {}", written.number, written.length, hex(&out));
        page.line(&asked, &answer, case.stated);
    }
}
