//! The section of the link tally.

use crate::page::Page;
use crate::pieces::hex;
use second::tally::{add, Tally};

const CASES: [([u32; 4], &[u8], &str); 11] = [
    ([0, 0, 0, 0], &[0, 1, 2, 0], "0 1 2 1 1"),
    ([4_294_967_294, 0, 0, 0], &[0], "0 4294967295 1 0 0"),
    ([4_294_967_295, 0, 0, 0], &[0], "8 4294967295 0 0 0"),
    ([0, 4_294_967_294, 0, 0], &[0], "0 1 4294967295 0 0"),
    ([0, 4_294_967_294, 0, 0], &[0, 0], "8 0 4294967294 0 0"),
    ([0, 0, 4_294_967_290, 0], &[1; 16], "8 0 0 4294967290 0"),
    ([0, 0, 0, 4_294_967_279], &[2; 16], "0 1 0 0 4294967295"),
    ([5, 6, 7, 8], &[], "1 5 6 7 8"),
    ([5, 6, 7, 8], &[0; 17], "1 5 6 7 8"),
    ([5, 6, 7, 8], &[3], "3 5 6 7 8"),
    ([4_294_967_295, 0, 0, 0], &[0, 3], "3 4294967295 0 0 0"),
];

pub fn section(page: &mut Page) {
    for ([replies, read, wrong, silent], marks, stated) in CASES {
        let mut tally = Tally {
            replies,
            read,
            wrong,
            silent,
        };
        let asked = format!("tally {} {} :", counts(&tally), hex(marks));
        let number = add(&mut tally, marks);
        page.line(&asked, &format!("{number} {}", counts(&tally)), stated);
    }
}

fn counts(tally: &Tally) -> String {
    let Tally {
        replies,
        read,
        wrong,
        silent,
    } = tally;
    format!("{replies} {read} {wrong} {silent}")
}
