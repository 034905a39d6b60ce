//! The section of the host reader.

use crate::page::Page;
use crate::pieces::Piece::{self, Fill, D};
use crate::pieces::{hex, joined, Flip};
use second::reader::read;

struct Case {
    n: u32,
    code: u32,
    pieces: &'static [Piece],
    flips: &'static [Flip],
    bytes: usize,
    marks: usize,
    stated: &'static str,
}

/// The pair holds the lengths of the lent bytes and marks.
const fn case(
    n: u32,
    code: u32,
    pieces: &'static [Piece],
    lent: (usize, usize),
    stated: &'static str,
) -> Case {
    Case {
        n,
        code,
        pieces,
        flips: &[],
        bytes: lent.0,
        marks: lent.1,
        stated,
    }
}

const fn hit(case: Case, flips: &'static [Flip]) -> Case {
    Case { flips, ..case }
}

const HEAD: Piece = Fill(0xFF, 4);
const DEVICE_1: Piece = D([0x01, 0x02, 0x03, 0x04, 0x05, 0x06]);
const DEVICE_2: Piece = D([0x11, 0x12, 0x13, 0x14, 0x15, 0x16]);
const TWO: [Piece; 3] = [Fill(0x00, 4), DEVICE_1, DEVICE_2];
const ONE_SILENT: [Piece; 3] = [Fill(0x00, 4), DEVICE_1, Fill(0xFF, 8)];
const THREE: [Piece; 4] = [
    HEAD,
    D([0xE8, 0x18, 0x0F, 0x0F, 0x0F, 0x0F]),
    Fill(0xFF, 8),
    D([0x61, 0x0F, 0x0F, 0x0F, 0x0F, 0x0F]),
];

const CASES: [Case; 15] = [
    case(1, 0x004, &[HEAD, D([0; 6])], (6, 1), "0 000000000000 00"),
    case(
        2,
        0x004,
        &TWO,
        (14, 3),
        "0 010203040506111213141516AAAA 0000AA",
    ),
    hit(
        case(
            2,
            0x004,
            &TWO,
            (14, 3),
            "0 000000000000111213141516AAAA 0100AA",
        ),
        &[(11, 0x01)],
    ),
    case(
        2,
        0x004,
        &ONE_SILENT,
        (14, 3),
        "0 010203040506000000000000AAAA 0002AA",
    ),
    hit(
        case(
            3,
            0x009,
            &THREE,
            (18, 3),
            "0 E8180F0F0F0F000000000000000000000000 000201",
        ),
        &[(20, 0x01)],
    ),
    case(0, 0x004, &[], (0, 0), "1 - -"),
    case(17, 0x004, &[], (0, 0), "1 - -"),
    case(1, 0x003, &[], (0, 0), "2 - -"),
    case(1, 0x001, &[], (0, 0), "7 - -"),
    case(1, 0x711, &[], (0, 0), "7 - -"),
    case(1, 0x004, &[Fill(0xFF, 11)], (6, 1), "3 AAAAAAAAAAAA AA"),
    case(1, 0x004, &[Fill(0xFF, 13)], (6, 1), "3 AAAAAAAAAAAA AA"),
    case(1, 0x004, &[Fill(0xFF, 12)], (5, 1), "5 AAAAAAAAAA AA"),
    case(1, 0x004, &[Fill(0xFF, 12)], (6, 0), "5 AAAAAAAAAAAA -"),
    case(1, 0x004, &[Fill(0xFF, 12)], (6, 1), "0 000000000000 02"),
];

pub fn section(page: &mut Page) {
    for case in &CASES {
        let reply = joined(case.pieces, case.flips);
        let mut bytes = vec![0xAA; case.bytes];
        let mut marks = vec![0xAA; case.marks];
        let number = read(case.n, case.code, &reply, &mut bytes, &mut marks);
        let asked = format!(
            "read {} {:03X} {} {} {} :",
            case.n,
            case.code,
            hex(&reply),
            case.bytes,
            case.marks
        );
        let answer = format!("{number} {} {}", hex(&bytes), hex(&marks));
        page.line(&asked, &answer, case.stated);
    }
}
