//! All refusals in their order: every N, every command, and lengths off by one both ways.

use crate::states::sound;
use crate::{beside, commands, pattern, state_of};
use second::commands::{Command, Kind};
use second::groups::command_group;
use second::tally::Tally;
use std::collections::BTreeSet;

/// Sizes of a chain: 0 to 17, and numbers that would be lawful if they were cut down.
fn sizes() -> impl Iterator<Item = u32> {
    (0..=17).chain([255, 256, 257, 65_535, 65_536, 65_537, u32::MAX])
}

/// Codes that no row has and no conversion: near ones, with a top bit set, and too wide.
const UNKNOWN: [u32; 10] = [
    0x000,
    0x003,
    0x005,
    0x267,
    0x713,
    0x7FF,
    0x801,
    0x1_0001,
    0x1_0260,
    u32::MAX,
];

fn codes() -> impl Iterator<Item = u32> {
    commands()
        .map(|command| u32::from(command.code))
        .chain(UNKNOWN)
}

/// A length, its neighbours, and nothing.
fn around(length: usize) -> BTreeSet<usize> {
    [0, length.saturating_sub(1), length, length + 1].into()
}

/// What a size asks for, bounded so that a refused one stays cheap.
fn devices(n: u32) -> usize {
    n.min(17) as usize
}

fn all_seen(numbers: BTreeSet<u8>, wanted: &[u8]) {
    assert_eq!(
        numbers,
        wanted.iter().copied().collect(),
        "every number of the entry came up"
    );
}

#[test]
fn writer() {
    let mut seen = BTreeSet::new();
    for (n, code) in sizes().flat_map(|n| codes().map(move |code| (n, code))) {
        for data in around(6 * devices(n)) {
            for out in around(4 + 8 * devices(n)).into_iter().chain(around(4)) {
                let number = beside::write(n, code, &pattern(data, 3), &mut pattern(out, 4)).number;
                seen.insert(number);
            }
        }
    }
    all_seen(seen, &[0, 1, 2, 3, 5]);
    beside::ran("refusals of the writer");
}

fn length_of(command: &Command, devices: usize) -> usize {
    match command.kind {
        Kind::Write | Kind::Read => 4 + 8 * devices,
        Kind::Clear | Kind::Convert => 4,
    }
}

#[test]
fn chain() {
    let mut seen = BTreeSet::new();
    for (n, command) in sizes().flat_map(|n| commands().map(move |command| (n, command))) {
        let length = length_of(&command, devices(n));
        let mut frame = pattern(length + 1, 6);
        for (top, closing) in [(0, 0), (0, 1), (0xF800, 0)] {
            frame[..4].copy_from_slice(&command_group(command.code | top));
            frame[3] ^= closing;
            for size in around(length).into_iter().chain(0..4) {
                for state in around(109 * devices(n))
                    .into_iter()
                    .chain([108 * devices(n)])
                {
                    for reply in around(size) {
                        let (mut state, mut reply) = (sound(pattern(state, 1)), pattern(reply, 2));
                        seen.insert(
                            beside::chain(n, &frame[..size], &mut state, &mut reply).number,
                        );
                    }
                }
            }
        }
    }
    all_seen(seen, &[0, 1, 2, 3, 4, 5, 6]);
    beside::ran("refusals of the chain");
}

/// Every two command bytes with a right check word: the 26 and the 368 conversion codes are known, and no other.
#[test]
fn every_command_group() {
    let mut known = 0;
    for code in 0..=u16::MAX {
        let (mut state, mut reply) = (state_of(1, 1), [0; 4]);
        let number = beside::chain(1, &command_group(code), &mut state, &mut reply).number;
        known += usize::from(number != 2);
        let written = beside::write(1, u32::from(code), &[], &mut [0; 12]).number;
        assert_eq!(written == 2, number == 2, "{code:#x}");
    }
    assert_eq!(known, 26 + 368);
    beside::ran("every command group");
}

#[test]
fn reader() {
    let mut seen = BTreeSet::new();
    for (n, code) in sizes().flat_map(|n| codes().map(move |code| (n, code))) {
        for reply in around(4 + 8 * devices(n)) {
            for data in around(6 * devices(n)) {
                for marks in around(devices(n)) {
                    let (mut data, mut marks) = (pattern(data, 2), pattern(marks, 3));
                    seen.insert(beside::read(
                        n,
                        code,
                        &pattern(reply, 1),
                        &mut data,
                        &mut marks,
                    ));
                }
            }
        }
    }
    all_seen(seen, &[0, 1, 2, 3, 5, 7]);
    beside::ran("refusals of the reader");
}

#[test]
fn cells() {
    for groups in (0..3).chain(34..=38) {
        for marks in 0..9 {
            beside::cells(&pattern(groups, 1), &vec![0; marks]);
        }
    }
    for at in 0..6 {
        for mark in 0..=255 {
            let mut marks = [0, 1, 2, 0, 1, 2];
            marks[at] = mark;
            let number = beside::cells(&pattern(36, 2), &marks).number;
            assert_eq!(number, if mark > 2 { 3 } else { 0 });
        }
    }
    beside::ran("refusals of the cells");
}

#[test]
fn tally() {
    for length in 0..=18 {
        for (at, mark) in (0..length).flat_map(|at| (0..=255).map(move |mark| (at, mark))) {
            let mut marks: Vec<u8> = (0..length).map(|at| (at % 3) as u8).collect();
            marks[at] = mark;
            beside::tally_add(&mut Tally::default(), &marks);
        }
        beside::tally_add(&mut Tally::default(), &vec![0; length]);
    }
    for room in 0..18 {
        for (length, mark) in (0..18).flat_map(|length| (0..4).map(move |mark| (length, mark))) {
            for full in 0..4 {
                let mut counts = [7; 4];
                counts[full] = u32::MAX - room;
                let [replies, read, wrong, silent] = counts;
                let mut tally = Tally {
                    replies,
                    read,
                    wrong,
                    silent,
                };
                beside::tally_add(&mut tally, &vec![mark; length]);
            }
        }
    }
    beside::ran("refusals of the tally");
}

#[test]
fn wake() {
    let gaps = [0, 1, 4_299, 4_300, 4_301, 1 << 31, u32::MAX];
    for (n, gap) in sizes().flat_map(|n| gaps.map(|gap| (n, gap))) {
        for last in [
            0,
            1,
            4_300,
            4_294_962_995,
            4_294_962_996,
            4_294_967_000,
            u32::MAX,
        ] {
            beside::wake(n, last, last.wrapping_add(gap));
        }
    }
    assert_eq!(beside::wake(16, 4_294_967_000, 4_003).wait, 0);
    assert_eq!(beside::wake(16, 4_294_967_000, 4_004).wait, 160);
    beside::ran("wake");
}
