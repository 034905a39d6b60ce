//! The wire log: the limits of each kind, undoing both ways, and every cut and every change of a byte of a log.

use crate::beside::{self, Log};
use crate::pattern;
use crate::records::{each_flip, each_value, record};

/// Kinds that are known, kinds next to them, and kinds that would be known if they were cut down.
const KINDS: [u32; 16] = [
    0,
    1,
    2,
    3,
    4,
    5,
    6,
    255,
    257,
    258,
    65_535,
    65_536,
    65_537,
    65_540,
    1 << 31,
    u32::MAX,
];

/// Lengths of a body around every limit and around what a byte holds.
fn lengths() -> impl Iterator<Item = usize> {
    (0..=3)
        .chain(130..=135)
        .chain(198..=203)
        .chain(253..=258)
        .chain([65_533, 65_534, 65_536, 65_537])
}

/// Each kind twice, and two kinds that are not known.
fn sample() -> Vec<u8> {
    [
        record(1, &[16]),
        record(2, &pattern(12, 1)),
        record(3, &pattern(12, 2)),
        record(9, &[1, 0, 0]),
        record(4, b"a note"),
        record(2, &[]),
        record(3, &pattern(132, 3)),
        record(0, &[]),
        record(4, &[]),
        record(1, &[1]),
    ]
    .concat()
}

/// Every place of a log, places past its end up to the last there is, and the whole of it.
fn hold(log: &[u8]) {
    let mut lent = Log::new(log);
    for place in 0..log.len() + 4 {
        let seen = lent.at(place);
        if seen.number == 0 && seen.end == 0 {
            assert!(place < seen.next && seen.next <= log.len());
        }
    }
    for less in (0..5).chain([log.len(), log.len() + 1, log.len() + 4]) {
        assert_eq!(lent.at(usize::MAX - less).number, 10);
    }
    lent.walk();
}

#[test]
fn every_kind_and_length() {
    for (kind, length) in KINDS
        .into_iter()
        .flat_map(|kind| lengths().map(move |length| (kind, length)))
    {
        let needed = 4 + length;
        for room in [0, 3, 4, needed - 1, needed, needed + 1] {
            beside::log_put(kind, &vec![1; length], &mut pattern(room, 7));
        }
    }
    beside::ran("every kind and length of a record");
}

#[test]
fn every_size() {
    for size in 0..=255 {
        let number = if (1..=16).contains(&size) { 0 } else { 11 };
        assert_eq!(beside::log_put(1, &[size], &mut [0; 9]).number, number);
        assert_eq!(Log::new(&record(1, &[size])).at(0).number, number);
        for room in 0..5 {
            beside::log_put(1, &[size], &mut pattern(room, 2));
        }
    }
    beside::ran("every chain size of a record");
}

#[test]
fn every_kind_read() {
    for kind in 0..=u16::MAX {
        let log = record(kind, &[2]);
        let seen = Log::new(&log).at(0);
        assert_eq!((seen.number, seen.kind), (0, u32::from(kind)));
        assert_eq!(seen.body_len, usize::from((1..=4).contains(&kind)));
    }
    for kind in 0..=6 {
        for length in lengths().filter(|length| *length <= 65_533) {
            let log = record(kind, &pattern(length, 5));
            let mut lent = Log::new(&log);
            lent.at(0);
            lent.walk();
            Log::new(&log[..log.len() - 1]).at(0);
        }
    }
    beside::ran("every kind read");
}

/// Every lawful record, in a log between two others.
#[test]
fn reading_undoes_writing() {
    for (kind, most) in [(1, 1), (2, 132), (3, 132), (4, 200)] {
        for length in 0..=most {
            let body = vec![9; length];
            let mut out = [0; 210];
            let written = beside::log_put(kind, &body, &mut out);
            if written.number != 0 {
                assert_eq!((kind, length), (1, 0));
                continue;
            }
            let before = sample();
            let log = [&before, &out[..written.length], &before].concat();
            let seen = Log::new(&log).at(before.len());
            assert_eq!(log[seen.body..seen.body + seen.body_len], body);
            assert_eq!((seen.number, seen.kind), (0, kind));
            assert_eq!(seen.next, before.len() + written.length);
        }
    }
    beside::ran("reading undoes writing of a record");
}

#[test]
fn every_cut() {
    let log = sample();
    for length in 0..=log.len() {
        hold(&log[..length]);
        hold(&log[length..]);
    }
    beside::ran("every cut of a log");
}

/// A flip of each bit, and each value of the first five bytes of three records.
#[test]
fn every_flip() {
    let heads = [0, 5, 21].into_iter().flat_map(|head| head..head + 5);
    each_flip(&sample(), hold);
    each_value(&sample(), heads, hold);
    beside::ran("every flip in a log");
}

#[test]
fn a_long_log() {
    let log = [sample().repeat(500), vec![0; 3]].concat();
    let walk = Log::new(&log).walk();
    assert_eq!((walk.number, walk.at), (10, log.len() - 3));
    assert_eq!((walk.sizes, walk.unknown), (1000, 1000));
    beside::ran("a long log");
}
