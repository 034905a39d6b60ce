//! The section of the wake rule.

use crate::page::Page;
use second::wake::wake;

const CASES: [(u32, u32, u32, &str); 9] = [
    (16, 4_294_967_000, 4_003, "0 0"),
    (16, 4_294_967_000, 4_004, "0 160"),
    (0, 0, 0, "1 0"),
    (17, 0, 5_000, "1 0"),
    (1, 0, 4_299, "0 0"),
    (1, 0, 4_300, "0 10"),
    (1, 5, 4, "0 10"),
    (16, 0, u32::MAX, "0 160"),
    (u32::MAX, 0, 0, "1 0"),
];

pub fn section(page: &mut Page) {
    for (n, last, now, stated) in CASES {
        let answer = wake(n, last, now);
        page.line(
            &format!("wake {n} {last} {now} :"),
            &format!("{} {}", answer.number, answer.wait),
            stated,
        );
    }
}
