//! The section of the wire log. Numbers are decimal, bytes are two hex digits each, and no bytes are a dash.
//!
//!     put KIND BODY ROOM : NUMBER LENGTH OUT                    OUT is all ROOM bytes, each of them AA before
//!     at PLACE LOG : NUMBER END KIND BODY BODY_LEN NEXT         the fields of struct rig_record; BODY is a place
//!     walk LOG : NUMBER AT SIZES FRAMES REPLIES NOTES UNKNOWN   the fields of struct rig_walk

use crate::page::Page;
use crate::pieces::Piece::{self, Bytes, Fill};
use crate::pieces::{hex, joined};
use second::wirelog::{put, record_at, walk, Record, Walk};

/// Kind, body, length of the output, and what is stated of the answer.
type Put = (u32, Piece, usize, &'static str);

/// A log, a place in it, and what is stated of the answer.
type At = (&'static [Piece], usize, &'static str);

/// A log, and what is stated of the answer.
type Whole = (&'static [Piece], &'static str);

const WRITTEN: [Put; 8] = [
    (1, Bytes(&[0x01]), 5, "0 5 0300010001"),
    (1, Bytes(&[0x10]), 8, "0 5 0300010010AAAAAA"),
    (2, Bytes(&[]), 4, "0 4 02000200"),
    (
        2,
        Bytes(&[0x07, 0x11, 0xC9, 0xC0]),
        9,
        "0 8 060002000711C9C0AA",
    ),
    (2, Fill(0x5A, 132), 136, "0 136"),
    (3, Fill(0xFF, 132), 138, "0 136"),
    (4, Bytes(b"hi"), 6, "0 6 040004006869"),
    (4, Fill(0x00, 200), 204, "0 204"),
];

const NOT_WRITTEN: [Put; 16] = [
    (1, Bytes(&[]), 5, "11 0 AAAAAAAAAA"),
    (1, Bytes(&[0x00]), 5, "11 0 AAAAAAAAAA"),
    (1, Bytes(&[0x11]), 5, "11 0 AAAAAAAAAA"),
    (1, Bytes(&[0x01, 0x01]), 6, "11 0 AAAAAAAAAAAA"),
    (2, Fill(0x5A, 133), 137, "11 0"),
    (3, Fill(0xFF, 133), 137, "11 0"),
    (4, Fill(0x00, 201), 205, "11 0"),
    (0, Bytes(&[]), 4, "11 0 AAAAAAAA"),
    (5, Bytes(&[]), 4, "11 0 AAAAAAAA"),
    (65_537, Bytes(&[0x01]), 5, "11 0 AAAAAAAAAA"),
    (u32::MAX, Bytes(&[]), 4, "11 0 AAAAAAAA"),
    (1, Bytes(&[0x01]), 4, "5 0 AAAAAAAA"),
    (3, Fill(0xFF, 132), 135, "5 0"),
    (4, Fill(0x00, 200), 0, "5 0 -"),
    (1, Bytes(&[0x11]), 4, "11 0 AAAAAAAA"),
    (5, Bytes(&[]), 0, "11 0 -"),
];

const SIZE_2: Piece = Bytes(&[0x03, 0x00, 0x01, 0x00, 0x02]);
const CLEAR_OUT: Piece = Bytes(&[0x06, 0x00, 0x02, 0x00, 0x07, 0x11, 0xC9, 0xC0]);
const KIND_7: Piece = Bytes(&[0x04, 0x00, 0x07, 0x00, 0xAA, 0xBB]);
const REPLY: Piece = Bytes(&[0x06, 0x00, 0x03, 0x00, 0xFF, 0xFF, 0xFF, 0xFF]);
const NOTE: Piece = Bytes(&[0x04, 0x00, 0x04, 0x00, 0x68, 0x69]);

/// Records at 0, 5, 13, 19 and 27; the end is 33.
const FIVE: [Piece; 5] = [SIZE_2, CLEAR_OUT, KIND_7, REPLY, NOTE];

const BROKEN: &str = "10 0 0 0 0 0";
const LIMITS: &str = "11 0 0 0 0 0";

const PLACES: [At; 11] = [
    (&FIVE, 0, "0 0 1 4 1 5"),
    (&FIVE, 5, "0 0 2 9 4 13"),
    (&FIVE, 13, "0 0 7 0 0 19"),
    (&FIVE, 19, "0 0 3 23 4 27"),
    (&FIVE, 27, "0 0 4 31 2 33"),
    (&FIVE, 33, "0 1 0 0 0 0"),
    (&FIVE, 34, BROKEN),
    (&FIVE, usize::MAX, BROKEN),
    (&FIVE, 1, BROKEN),
    (&[], 0, "0 1 0 0 0 0"),
    (&[], 1, BROKEN),
];

const RECORDS: [At; 22] = [
    (&[Bytes(&[0x03, 0x00, 0x01, 0x00, 0x10])], 0, "0 0 1 4 1 5"),
    (&[Bytes(&[0x02, 0x00, 0x02, 0x00])], 0, "0 0 2 4 0 4"),
    (
        &[Bytes(&[0x86, 0x00, 0x03, 0x00]), Fill(0xFF, 132)],
        0,
        "0 0 3 4 132 136",
    ),
    (
        &[Bytes(&[0xCA, 0x00, 0x04, 0x00]), Fill(0x00, 200)],
        0,
        "0 0 4 4 200 204",
    ),
    (&[Bytes(&[0x02, 0x00, 0x00, 0x00])], 0, "0 0 0 0 0 4"),
    (&[Bytes(&[0x02, 0x00, 0x05, 0x00])], 0, "0 0 5 0 0 4"),
    (
        &[Bytes(&[0x03, 0x00, 0x01, 0x01, 0x02])],
        0,
        "0 0 257 0 0 5",
    ),
    (
        &[Bytes(&[0x00, 0x01, 0xFF, 0xFF]), Fill(0x00, 254)],
        0,
        "0 0 65535 0 0 258",
    ),
    (&[Bytes(&[0x02, 0x00, 0x01, 0x00])], 0, LIMITS),
    (&[Bytes(&[0x03, 0x00, 0x01, 0x00, 0x00])], 0, LIMITS),
    (&[Bytes(&[0x03, 0x00, 0x01, 0x00, 0x11])], 0, LIMITS),
    (&[Bytes(&[0x04, 0x00, 0x01, 0x00, 0x01, 0x01])], 0, LIMITS),
    (
        &[Bytes(&[0x87, 0x00, 0x02, 0x00]), Fill(0x5A, 133)],
        0,
        LIMITS,
    ),
    (
        &[Bytes(&[0xCB, 0x00, 0x04, 0x00]), Fill(0x00, 201)],
        0,
        LIMITS,
    ),
    (&[Bytes(&[0x00, 0x00, 0x01, 0x00])], 0, BROKEN),
    (&[Bytes(&[0x01, 0x00, 0x01, 0x00])], 0, BROKEN),
    (&[Bytes(&[0x02, 0x00, 0x02])], 0, BROKEN),
    (&[Bytes(&[0x02, 0x00])], 0, BROKEN),
    (&[Bytes(&[0x02])], 0, BROKEN),
    (&[Bytes(&[0x03, 0x00, 0x01, 0x00])], 0, BROKEN),
    (&[Bytes(&[0x04, 0x00, 0x01, 0x00, 0x11])], 0, BROKEN),
    (&[Bytes(&[0xFF, 0xFF, 0x05, 0x00])], 0, BROKEN),
];

const WHOLE: [Whole; 7] = [
    (&[], "0 0 0 0 0 0 0"),
    (&FIVE, "0 33 1 1 1 1 1"),
    (
        &[SIZE_2, NOTE, KIND_7, NOTE, REPLY, KIND_7, NOTE, KIND_7],
        "0 49 1 0 1 3 3",
    ),
    (&[CLEAR_OUT, REPLY, CLEAR_OUT, REPLY], "0 32 0 2 2 0 0"),
    (&[SIZE_2, CLEAR_OUT, Bytes(&[0x02])], "10 13 1 1 0 0 0"),
    (
        &[SIZE_2, KIND_7, Bytes(&[0x01, 0x00, 0x07, 0x00]), NOTE],
        "10 11 1 0 0 0 1",
    ),
    (
        &[NOTE, REPLY, Bytes(&[0x03, 0x00, 0x01, 0x00, 0x00]), NOTE],
        "11 14 0 0 1 1 0",
    ),
];

pub fn section(page: &mut Page) {
    for (kind, body, room, stated) in WRITTEN.iter().chain(&NOT_WRITTEN) {
        lay(page, *kind, body, *room, stated);
    }
    for (log, place, stated) in PLACES.iter().chain(&RECORDS) {
        look(page, &joined(log, &[]), *place, stated);
    }
    for (log, stated) in WHOLE {
        count(page, &joined(log, &[]), stated);
    }
}

fn lay(page: &mut Page, kind: u32, body: &Piece, room: usize, stated: &str) {
    let body = joined(std::slice::from_ref(body), &[]);
    let mut out = vec![0xAA; room];
    let written = put(kind, &body, &mut out);
    page.line(
        &format!("put {kind} {} {room} :", hex(&body)),
        &format!("{} {} {}", written.number, written.length, hex(&out)),
        stated,
    );
}

fn look(page: &mut Page, log: &[u8], place: usize, stated: &str) {
    let Record {
        number,
        end,
        kind,
        body,
        body_len,
        next,
    } = record_at(log, place).into();
    page.line(
        &format!("at {place} {} :", hex(log)),
        &format!("{number} {end} {kind} {body} {body_len} {next}"),
        stated,
    );
}

fn count(page: &mut Page, log: &[u8], stated: &str) {
    let Walk {
        number,
        at,
        sizes,
        frames,
        replies,
        notes,
        unknown,
    } = walk(log);
    page.line(
        &format!("walk {} :", hex(log)),
        &format!("{number} {at} {sizes} {frames} {replies} {notes} {unknown}"),
        stated,
    );
}
