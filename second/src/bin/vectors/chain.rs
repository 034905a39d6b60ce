//! The section of the chain model.

use crate::page::Page;
use crate::pieces::Piece::{self, Bytes, Fill, C, D, K};
use crate::pieces::{hex, joined, Flip};
use second::chain::serve;

/// The length of the lent state, and its pins.
type State = (usize, &'static [u8]);

struct Case {
    n: u32,
    pieces: &'static [Piece],
    flips: &'static [Flip],
    state: State,
    reply: usize,
    stated: &'static str,
}

const fn case(
    n: u32,
    pieces: &'static [Piece],
    state: State,
    reply: usize,
    stated: &'static str,
) -> Case {
    hit(n, pieces, &[], state, reply, stated)
}

const fn hit(
    n: u32,
    pieces: &'static [Piece],
    flips: &'static [Flip],
    state: State,
    reply: usize,
    stated: &'static str,
) -> Case {
    Case {
        n,
        pieces,
        flips,
        state,
        reply,
        stated,
    }
}

/// In each of these a pin is not what is stored: bit 1 of CFGA's first byte is 0 for device 1, 1 for device 2, and so on.
const ONE: State = (109, &[1]);
const PAIR: State = (218, &[1, 0]);
const SIXTEEN: State = (1744, &[1, 0, 1, 0, 1, 0, 1, 0, 1, 0, 1, 0, 1, 0, 1, 0]);

const ZEROS: Piece = D([0; 6]);
const DEVICE_1: Piece = D([0x01, 0x02, 0x03, 0x04, 0x05, 0x06]);
const DEVICE_2: Piece = D([0x11, 0x12, 0x13, 0x14, 0x15, 0x16]);
const TWO: [Piece; 3] = [C(0x001), DEVICE_2, DEVICE_1];
const FIRST_GROUP: Flip = (11, 0x01);
const SECOND_GROUP: Flip = (12, 0x80);
const CUT: [Piece; 1] = [Bytes(&[0x07, 0x11, 0xC9])];

const CASES: [Case; 31] = [
    case(1, &[C(0x001), ZEROS], ONE, 12, "0 0001 1.0=000000000000"),
    case(
        1,
        &[Bytes(&[0x00, 0x01, 0x3D, 0x6F]), ZEROS],
        ONE,
        12,
        "4 0000 - FFFFFFFFFFFFFFFFFFFFFFFF",
    ),
    case(
        1,
        &[Bytes(&[0x00, 0x00, 0xB6, 0x5C]), ZEROS],
        ONE,
        12,
        "2 0000 - FFFFFFFFFFFFFFFFFFFFFFFF",
    ),
    case(
        2,
        &TWO,
        PAIR,
        20,
        "0 0003 1.0=010203040506,2.0=131213141516",
    ),
    hit(2, &TWO, &[FIRST_GROUP], PAIR, 22, "0 0001 1.0=010203040506"),
    hit(
        2,
        &TWO,
        &[SECOND_GROUP],
        PAIR,
        20,
        "0 0002 2.0=131213141516",
    ),
    hit(2, &TWO, &[FIRST_GROUP, SECOND_GROUP], PAIR, 20, "0 0000 -"),
    case(1, &[C(0x004), K(1)], ONE, 12, "0 0000 -"),
    case(2, &[C(0x009), K(2)], PAIR, 20, "0 0000 -"),
    case(2, &[C(0x00A), Fill(0x00, 16)], PAIR, 24, "0 0000 -"),
    case(2, &[C(0x711)], PAIR, 4, "0 0003"),
    case(1, &[C(0x712)], ONE, 7, "0 0001"),
    case(16, &[C(0x722), K(16)], SIXTEEN, 132, "0 0000 -"),
    case(0, &[C(0x711)], (0, &[]), 4, "1 0000 - AAAAAAAA"),
    case(17, &[C(0x711)], (1853, &[1; 17]), 4, "1 0000 - AAAAAAAA"),
    case(1, &[C(0x711)], (108, &[]), 4, "3 0000 - AAAAAAAA"),
    case(1, &[C(0x711)], (110, &[1]), 4, "3 0000 - AAAAAAAA"),
    case(1, &[C(0x711)], ONE, 3, "5 0000 - AAAAAA"),
    case(1, &[], ONE, 0, "6 0000 - -"),
    case(1, &CUT, ONE, 5, "6 0000 - FFFFFFAAAA"),
    case(
        1,
        &[C(0x711), Fill(0x00, 1)],
        ONE,
        8,
        "6 0000 - FFFFFFFFFFAAAAAA",
    ),
    case(1, &[C(0x001)], ONE, 4, "6 0000 - FFFFFFFF"),
    case(1, &[C(0x003)], ONE, 6, "2 0000 - FFFFFFFFAAAA"),
    case(
        1,
        &[Bytes(&[0xF8, 0x04, 0x09, 0x70]), K(1)],
        ONE,
        12,
        "2 0000 -",
    ),
    case(
        1,
        &[Bytes(&[0x00, 0x17, 0x4A, 0x88])],
        ONE,
        4,
        "2 0000 - FFFFFFFF",
    ),
    case(
        1,
        &[
            Bytes(&[0x00, 0x20, 0x00, 0x00]),
            D([0xA1, 0xA2, 0xA3, 0xA4, 0xA5, 0xA6]),
        ],
        ONE,
        12,
        "0 0001 1.16=A1A2A3A4A5A6",
    ),
    case(1, &[C(0x002), Fill(0xFF, 200)], ONE, 210, "6 0000 -"),
    case(1, &[Fill(0x00, 200)], ONE, 200, "4 0000 -"),
    case(0, &CUT, (108, &[]), 0, "1 0000 - -"),
    case(1, &CUT, (108, &[]), 0, "3 0000 - -"),
    case(1, &CUT, ONE, 0, "5 0000 - -"),
];

const SET: Piece = D([0x02, 0xA2, 0xA3, 0xA4, 0xA5, 0xA6]);
const UNSET: Piece = D([0xFD, 0xB2, 0xB3, 0xB4, 0xB5, 0xB6]);
const SET_TWICE: [Piece; 3] = [C(0x001), SET, SET];
const UNSET_TWICE: [Piece; 3] = [C(0x001), UNSET, UNSET];
const READ_ONE: [Piece; 2] = [C(0x002), K(1)];
const READ_TWO: [Piece; 2] = [C(0x002), K(2)];
const READ_ALL: [Piece; 2] = [C(0x002), K(16)];

const PINS: [Case; 14] = [
    case(
        2,
        &SET_TWICE,
        (218, &[0, 1]),
        20,
        "0 0003 1.0=00A2A3A4A5A6,2.0=02A2A3A4A5A6",
    ),
    case(
        2,
        &SET_TWICE,
        (218, &[1, 0]),
        20,
        "0 0003 1.0=00A2A3A4A5A6,2.0=02A2A3A4A5A6",
    ),
    case(
        2,
        &UNSET_TWICE,
        (218, &[0, 1]),
        20,
        "0 0003 1.0=FDB2B3B4B5B6,2.0=FFB2B3B4B5B6",
    ),
    case(
        2,
        &UNSET_TWICE,
        (218, &[1, 0]),
        20,
        "0 0003 1.0=FDB2B3B4B5B6,2.0=FFB2B3B4B5B6",
    ),
    case(
        2,
        &[C(0x024), SET, UNSET],
        (218, &[0, 1]),
        20,
        "0 0003 1.1=FDB2B3B4B5B6,2.1=02A2A3A4A5A6",
    ),
    case(
        1,
        &READ_ONE,
        (109, &[0]),
        12,
        "0 0000 - FFFFFFFF01080F161D24CE58",
    ),
    case(
        1,
        &READ_ONE,
        (109, &[1]),
        12,
        "0 0000 - FFFFFFFF03080F161D24B6E8",
    ),
    case(
        2,
        &READ_TWO,
        (218, &[0, 0]),
        20,
        "0 0000 - FFFFFFFF01080F161D24CE5809121920272EB4A4",
    ),
    case(
        2,
        &READ_TWO,
        (218, &[0, 1]),
        20,
        "0 0000 - FFFFFFFF01080F161D24CE580B121920272ECC14",
    ),
    case(
        2,
        &READ_TWO,
        (218, &[1, 0]),
        20,
        "0 0000 - FFFFFFFF03080F161D24B6E809121920272EB4A4",
    ),
    case(
        2,
        &READ_TWO,
        (218, &[1, 1]),
        20,
        "0 0000 - FFFFFFFF03080F161D24B6E80B121920272ECC14",
    ),
    case(16, &READ_ALL, SIXTEEN, 132, "0 0000 -"),
    case(
        1,
        &[C(0x026), K(1)],
        (109, &[1]),
        12,
        "0 0000 - FFFFFFFF2B323940474E8384",
    ),
    case(
        2,
        &[C(0x026), K(2)],
        (218, &[1, 1]),
        20,
        "0 0000 - FFFFFFFF2B323940474E8384353C434A5158F2B8",
    ),
];

/// The last device's pin is 2, or 255.
const SIXTEENTH_2: State = (1744, &[1, 0, 1, 0, 1, 0, 1, 0, 1, 0, 1, 0, 1, 0, 1, 2]);
const SIXTEENTH_255: State = (1744, &[1, 0, 1, 0, 1, 0, 1, 0, 1, 0, 1, 0, 1, 0, 1, 255]);

const REFUSED_PINS: [Case; 16] = [
    case(
        1,
        &READ_ONE,
        (109, &[2]),
        12,
        "3 0000 - AAAAAAAAAAAAAAAAAAAAAAAA",
    ),
    case(
        1,
        &[C(0x001), SET],
        (109, &[255]),
        12,
        "3 0000 - AAAAAAAAAAAAAAAAAAAAAAAA",
    ),
    case(
        2,
        &READ_TWO,
        (218, &[2, 0]),
        20,
        "3 0000 - AAAAAAAAAAAAAAAAAAAAAAAAAAAAAAAAAAAAAAAA",
    ),
    case(
        2,
        &SET_TWICE,
        (218, &[255, 0]),
        20,
        "3 0000 - AAAAAAAAAAAAAAAAAAAAAAAAAAAAAAAAAAAAAAAA",
    ),
    case(
        2,
        &SET_TWICE,
        (218, &[1, 2]),
        20,
        "3 0000 - AAAAAAAAAAAAAAAAAAAAAAAAAAAAAAAAAAAAAAAA",
    ),
    case(
        2,
        &READ_TWO,
        (218, &[1, 255]),
        20,
        "3 0000 - AAAAAAAAAAAAAAAAAAAAAAAAAAAAAAAAAAAAAAAA",
    ),
    case(16, &READ_ALL, SIXTEENTH_2, 132, "3 0000 -"),
    case(16, &READ_ALL, SIXTEENTH_255, 132, "3 0000 -"),
    case(1, &[C(0x711)], (109, &[2]), 3, "3 0000 - AAAAAA"),
    case(2, &[C(0x711)], (218, &[1, 255]), 3, "3 0000 - AAAAAA"),
    case(16, &READ_ALL, SIXTEENTH_2, 131, "3 0000 -"),
    case(1, &CUT, (109, &[2]), 0, "3 0000 - -"),
    case(
        1,
        &[Bytes(&[0x00, 0x01, 0x3D, 0x6F])],
        (109, &[255]),
        4,
        "3 0000 - AAAAAAAA",
    ),
    case(17, &CUT, (1853, &[2; 17]), 0, "1 0000 - -"),
    case(2, &[C(0x711)], (216, &[1]), 4, "3 0000 - AAAAAAAA"),
    case(16, &[C(0x711)], (1728, &[1; 15]), 4, "3 0000 - AAAAAAAA"),
];

pub fn section(page: &mut Page) {
    for case in CASES.iter().chain(&PINS).chain(&REFUSED_PINS) {
        let (length, pins) = case.state;
        let frame = joined(case.pieces, case.flips);
        let before = stored(length, pins);
        let mut state = before.clone();
        let mut reply = vec![0xAA; case.reply];
        let heard = serve(case.n, &frame, &mut state, &mut reply);
        let asked = format!(
            "chain {} {} {length} {} {} :",
            case.n,
            hex(&frame),
            hex(pins),
            case.reply
        );
        let changed = changed(&before, &state);
        let answer = format!(
            "{} {:04X} {changed} {}",
            heard.number,
            heard.word,
            hex(&reply)
        );
        page.line(&asked, &answer, case.stated);
    }
}

fn stored(length: usize, pins: &[u8]) -> Vec<u8> {
    let mut state: Vec<u8> = (0..length)
        .map(|place| ((7 * place + 1) % 251) as u8)
        .collect();
    for (place, pin) in state.iter_mut().skip(108).step_by(109).zip(pins) {
        *place = *pin;
    }
    state
}

fn changed(before: &[u8], after: &[u8]) -> String {
    let devices = before.chunks(109).zip(after.chunks(109));
    let list: Vec<String> = (1..)
        .zip(devices)
        .flat_map(|(k, (old, new))| changed_in(k, old, new))
        .collect();
    if list.is_empty() {
        "-".to_string()
    } else {
        list.join(",")
    }
}

/// The groups of device k that changed, and its pin, which stands after the 18 of them.
fn changed_in(k: usize, before: &[u8], after: &[u8]) -> Vec<String> {
    let pairs = before.chunks(6).zip(after.chunks(6));
    pairs
        .enumerate()
        .filter(|(_, (old, new))| old != new)
        .map(|(group, (_, new))| match group {
            18 => format!("{k}.pin={}", hex(new)),
            _ => format!("{k}.{group}={}", hex(new)),
        })
        .collect()
}
