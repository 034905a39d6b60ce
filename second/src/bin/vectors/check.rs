//! The sections of the check word: words of whole inputs and entries of the table.

use crate::page::Page;
use crate::pieces::hex;
use second::pec::{entry, pec};

const WORDS: [(&[u8], &str); 26] = [
    (&[], "0020"),
    (&[0x00], "2000"),
    (&[0x00, 0x01], "3D6E"),
    (&[0xFE, 0xF5], "EB50"),
    (&[0x0E], "E4C6"),
    (&[0x0F], "6FF4"),
    (&[0xFE, 0xF3], "C798"),
    (&[0x00, 0x16], "C1BA"),
    (&[0x17, 0x00], "7512"),
    (&[0x00, 0x17], "4A88"),
    (&[0x11, 0x12], "94A6"),
    (&[0x00, 0x01, 0x0E], "9516"),
    (&[0xFB, 0x60], "FADE"),
    (&[0xF8, 0x04], "0970"),
    (&[0x01, 0x00, 0x00, 0x00, 0x00, 0x00], "FE4A"),
    (&[0xE8, 0x18, 0x0F, 0x0F, 0x0F, 0x0F], "C602"),
    (&[0x00, 0x00, 0x00, 0x00, 0x00, 0x00], "C212"),
    (&[0x61, 0x0F, 0x0F, 0x0F, 0x0F, 0x0F], "76B6"),
    (&[0xE7, 0x18, 0x0F, 0x0F, 0x0F, 0x0F], "1A78"),
    (&[0x1A, 0xE7, 0x0F, 0x0F, 0x0F, 0x0F], "7C26"),
    (&[0x01], "AB32"),
    (&[0x20], "965C"),
    (&[0x00, 0x00], "B65C"),
    (&[0x00, 0x02], "2B0A"),
    (&[0x00, 0x04], "07C2"),
    (&[0x07, 0x11], "C9C0"),
];

const ENTRIES: [(u8, &str); 3] = [(1, "4599"), (2, "4EAB"), (128, "2213")];

pub fn words(page: &mut Page) {
    for (bytes, stated) in WORDS {
        let asked = format!("pec {}", hex(bytes));
        page.line(&asked, &format!("{:04X}", pec(bytes)), stated);
    }
}

pub fn entries(page: &mut Page) {
    for (index, stated) in ENTRIES {
        let asked = format!("entry {index}");
        page.line(&asked, &format!("{:04X}", entry(index)), stated);
    }
}
