//! The wire log: the limits of each kind, each refusal in its order, undoing both ways, and any bytes held against a plain reading.

mod records;

use records::{each_flip, each_value, record};
use second::wirelog::{put, record_at, walk, Found, Kind, Record, Walk};
use second::writer::Written;

const BROKEN: u8 = 10;
const LIMITS: u8 = 11;
const OUTPUT_SHORT: u8 = 5;

/// Kinds that are not known, edges first.
const UNKNOWN: [u16; 8] = [0, 5, 6, 255, 256, 257, 260, 65_535];

/// A log with each kind twice, empty bodies, full bodies and kinds that are not known.
fn sample() -> Vec<u8> {
    [
        record(1, &[16]),
        record(2, &[0x07, 0x11, 0xC9, 0xC0]),
        record(3, &[0xFF; 4]),
        record(4, b"cleared"),
        record(7, &[1, 0, 2]),
        record(2, &[]),
        record(3, &[0x5A; 132]),
        record(0, &[]),
        record(4, &[]),
        record(1, &[1]),
    ]
    .concat()
}

/// Bodies within a kind's limits, one of each length, or of each size.
fn lawful(kind: u16) -> Vec<Vec<u8>> {
    match kind {
        1 => (1..=16).map(|size| vec![size]).collect(),
        2 | 3 => (0..=132).map(|length| vec![0xA5; length]).collect(),
        _ => (0..=200).map(|length| vec![0x20; length]).collect(),
    }
}

/// Bodies outside a kind's limits: every other size, and lengths next to the limits, past a byte and up to the longest.
fn unlawful(kind: u16) -> Vec<Vec<u8>> {
    match kind {
        1 => [0]
            .into_iter()
            .chain(17..=255)
            .map(|size| vec![size])
            .chain([vec![], vec![1, 1], vec![16; 16]])
            .collect(),
        2 | 3 => [133, 134, 200, 256, 388, 65_533]
            .map(|length| vec![0xA5; length])
            .to_vec(),
        _ => [201, 202, 255, 256, 456, 65_533]
            .map(|length| vec![0x20; length])
            .to_vec(),
    }
}

fn refused(number: u8) -> Written {
    Written { number, length: 0 }
}

/// What rig.h's record has for a place, read byte by byte in numbers that are wide enough for every sum.
fn plain(log: &[u8], place: usize) -> Record {
    let refusal = |number| Record {
        number,
        ..Record::default()
    };
    let (end, at) = (log.len() as u128, place as u128);
    if at == end {
        return Record {
            end: 1,
            ..Record::default()
        };
    }
    if at + 2 > end {
        return refusal(BROKEN);
    }
    let pair = |from: usize| u128::from(log[from]) + 256 * u128::from(log[from + 1]);
    let length = pair(place);
    if length < 2 || at + 2 + length > end {
        return refusal(BROKEN);
    }
    let kind = pair(place + 2);
    let body_len = (length - 2) as usize;
    let most = [1, 132, 132, 200];
    let known = (1..=4).contains(&kind);
    let small = known && body_len <= most[kind as usize - 1];
    let sized = kind != 1 || body_len == 1 && (1..=16).contains(&log[place + 4]);
    if known && !(small && sized) {
        return refusal(LIMITS);
    }
    Record {
        kind: kind as u32,
        body: if known { place + 4 } else { 0 },
        body_len: if known { body_len } else { 0 },
        next: (at + 2 + length) as usize,
        ..Record::default()
    }
}

fn plain_walk(log: &[u8]) -> Walk {
    let mut counts = [0; 5];
    let mut at = 0;
    loop {
        let record = plain(log, at);
        if record.number != 0 || record.end == 1 {
            let [sizes, frames, replies, notes, unknown] = counts;
            return Walk {
                number: record.number,
                at,
                sizes,
                frames,
                replies,
                notes,
                unknown,
            };
        }
        let known = (1..=4).contains(&record.kind);
        counts[if known { record.kind as usize - 1 } else { 4 }] += 1;
        at = record.next;
    }
}

/// Every place of the log and some past its end, and the whole of it, as the plain reading has them.
fn hold(log: &[u8]) {
    let past = [1, 2, 3, 4].map(|more| usize::MAX - more);
    for place in (0..=log.len() + 5).chain(past).chain([usize::MAX]) {
        let record = Record::from(record_at(log, place));
        assert_eq!(record, plain(log, place), "place {place} of {log:02X?}");
        if record.number == 0 && record.end == 0 {
            assert!(place < record.next && record.next <= log.len());
        }
    }
    assert_eq!(walk(log), plain_walk(log), "{log:02X?}");
}

/// Marsaglia's xorshift, 64 bits.
struct Dice(u64);

impl Dice {
    fn below(&mut self, limit: usize) -> usize {
        self.0 ^= self.0 << 13;
        self.0 ^= self.0 >> 7;
        self.0 ^= self.0 << 17;
        (self.0 >> 11) as usize % limit
    }

    fn bytes(&mut self, length: usize) -> Vec<u8> {
        (0..length).map(|_| self.below(256) as u8).collect()
    }

    /// A record of kind 0 to 5, its body near its kind's limits or short.
    fn record(&mut self) -> Vec<u8> {
        let kind = self.below(6) as u16;
        let body = match (kind, self.below(4)) {
            (1, 0) => self.below(3),
            (1, _) => return record(1, &[self.below(18) as u8]),
            (2 | 3, 0) => 130 + self.below(4),
            (4, 0) => 198 + self.below(4),
            _ => self.below(9),
        };
        record(kind, &self.bytes(body))
    }
}

#[test]
fn a_record_is_length_kind_and_body_low_byte_first() {
    for (kind, body, bytes) in [
        (1, &[16][..], &[3, 0, 1, 0, 16][..]),
        (2, &[], &[2, 0, 2, 0]),
        (3, &[0xFF, 0xFE], &[4, 0, 3, 0, 0xFF, 0xFE]),
        (4, b"hi", &[4, 0, 4, 0, 0x68, 0x69]),
    ] {
        let mut out = vec![0xAA; bytes.len()];
        let written = Written {
            number: 0,
            length: bytes.len(),
        };
        assert_eq!(put(kind, body, &mut out), written);
        assert_eq!(out, bytes);
    }
}

#[test]
fn the_writer_takes_every_body_within_the_limits_of_its_kind() {
    for kind in 1..=4 {
        for body in lawful(kind) {
            let mut out = [0xAA; 210];
            let length = 4 + body.len();
            assert_eq!(
                put(u32::from(kind), &body, &mut out),
                Written { number: 0, length }
            );
            assert_eq!(out[..length], record(kind, &body));
            assert!(out[length..].iter().all(|byte| *byte == 0xAA));
        }
    }
}

#[test]
fn the_writer_refuses_a_body_outside_the_limits_of_its_kind() {
    for kind in 1..=4 {
        for body in unlawful(kind) {
            let mut out = vec![0xAA; body.len() + 9];
            assert_eq!(put(kind.into(), &body, &mut out), refused(LIMITS));
            assert!(out.iter().all(|byte| *byte == 0xAA));
        }
    }
}

#[test]
fn the_writer_refuses_an_unknown_kind_and_cuts_none_down() {
    let wide = (1..=4).flat_map(|kind| [8, 16, 24, 31].map(|place| kind + (1 << place)));
    for kind in UNKNOWN.map(u32::from).into_iter().chain(wide) {
        let mut out = [0xAA; 9];
        assert_eq!(put(kind, &[1], &mut out), refused(LIMITS), "{kind}");
        assert_eq!(out, [0xAA; 9]);
    }
    assert_eq!(put(65_537, &[1], &mut [0; 5]), refused(LIMITS));
    assert_eq!(put(u32::MAX, &[1], &mut [0; 5]), refused(LIMITS));
}

#[test]
fn the_writer_refuses_an_output_that_is_too_short() {
    for (kind, body) in [
        (1, vec![1]),
        (2, vec![]),
        (3, vec![7; 132]),
        (4, vec![7; 200]),
    ] {
        let length = 4 + body.len();
        for room in 0..length {
            let mut out = vec![0xAA; room];
            assert_eq!(put(kind, &body, &mut out), refused(OUTPUT_SHORT));
            assert!(out.iter().all(|byte| *byte == 0xAA));
        }
        assert_eq!(put(kind, &body, &mut vec![0; length]).length, length);
    }
}

#[test]
fn the_writer_looks_at_the_limits_before_the_output() {
    for (kind, body) in [
        (0, vec![]),
        (5, vec![]),
        (65_537, vec![1]),
        (1, vec![]),
        (1, vec![0]),
        (1, vec![17]),
        (2, vec![0; 133]),
        (3, vec![0; 133]),
        (4, vec![0; 201]),
    ] {
        assert_eq!(put(kind, &body, &mut []), refused(LIMITS));
        assert_eq!(put(kind, &body, &mut [0; 3]), refused(LIMITS));
    }
}

#[test]
fn the_reader_takes_every_body_within_the_limits_of_its_kind() {
    for kind in 1..=4 {
        for body in lawful(kind) {
            let log = record(kind, &body);
            let found = Found::Record {
                kind: Kind::of(kind.into()).unwrap(),
                body: 4..log.len(),
            };
            assert_eq!(record_at(&log, 0), Ok(found));
        }
    }
}

#[test]
fn the_reader_refuses_a_body_outside_the_limits_of_its_kind() {
    for kind in 1..=4 {
        for body in unlawful(kind) {
            let log = record(kind, &body);
            assert_eq!(record_at(&log, 0), Err(LIMITS), "{kind}, {}", body.len());
        }
    }
}

#[test]
fn of_an_unknown_kind_only_that_and_the_next_place_are_given() {
    for kind in UNKNOWN {
        for length in [0, 1, 2, 133, 201, 254, 255, 65_532, 65_533] {
            let mut log = record(kind, &vec![1; length]);
            let next = log.len();
            log.push(0);
            assert_eq!(record_at(&log, 0), Ok(Found::Unknown { kind, next }));
            let flat = Record {
                kind: u32::from(kind),
                next,
                ..Record::default()
            };
            assert_eq!(Record::from(record_at(&log, 0)), flat);
        }
    }
}

#[test]
fn every_kind_but_four_is_unknown() {
    for kind in 0..=u16::MAX {
        let found = record_at(&record(kind, &[1]), 0).unwrap();
        let known = matches!(found, Found::Record { .. });
        assert_eq!(known, (1..=4).contains(&kind), "{kind}");
        assert_eq!(Kind::of(kind.into()).is_some(), known);
    }
}

#[test]
fn at_its_end_a_log_says_so() {
    for log in [vec![], vec![0], vec![2, 0], record(9, &[]), sample()] {
        assert_eq!(record_at(&log, log.len()), Ok(Found::End));
        let flat = Record {
            end: 1,
            ..Record::default()
        };
        assert_eq!(Record::from(record_at(&log, log.len())), flat);
    }
}

#[test]
fn a_place_past_the_end_is_refused() {
    for log in [vec![], record(2, &[]), sample()] {
        for place in (1..9).flat_map(|more| [log.len() + more, usize::MAX - more]) {
            assert_eq!(record_at(&log, place), Err(BROKEN));
        }
        for place in [usize::MAX, usize::MAX / 2, 1 << 31, u32::MAX as usize] {
            assert_eq!(record_at(&log, place), Err(BROKEN));
        }
    }
}

#[test]
fn one_to_three_bytes_before_the_end_are_cut_short() {
    for length in 1..4 {
        for byte in 0..=255 {
            assert_eq!(record_at(&vec![byte; length], 0), Err(BROKEN));
        }
        let whole = sample();
        assert_eq!(record_at(&whole, whole.len() - length), Err(BROKEN));
    }
    for bytes in [&[0, 0, 0][..], &[2, 0, 1], &[2, 0]] {
        assert_eq!(record_at(bytes, 0), Err(BROKEN));
    }
}

#[test]
fn a_length_below_two_is_refused_whatever_follows() {
    for length in 0..2 {
        for kind in 0..=6 {
            let mut log = vec![length, 0, kind, 0];
            assert_eq!(record_at(&log, 0), Err(BROKEN));
            log.extend(sample());
            assert_eq!(record_at(&log, 0), Err(BROKEN));
        }
    }
}

#[test]
fn the_high_byte_of_the_length_counts() {
    for low in [0, 1, 2] {
        let mut log = vec![low, 1, 9, 0];
        log.resize(2 + 256 + usize::from(low), 0);
        let next = log.len();
        assert_eq!(
            record_at(&log, 0),
            Ok(Found::Unknown { kind: 9, next }),
            "{low}"
        );
        log.pop();
        assert_eq!(record_at(&log, 0), Err(BROKEN));
    }
}

#[test]
fn a_record_cut_short_is_refused_before_its_body_is_judged() {
    for kind in 0..=5 {
        for body in [vec![], vec![0], vec![17], vec![0; 133], vec![0; 201]] {
            let log = record(kind, &body);
            for length in 1..log.len() {
                assert_eq!(record_at(&log[..length], 0), Err(BROKEN));
            }
        }
    }
}

#[test]
fn a_refusal_has_only_its_number() {
    for (log, number) in [(vec![1, 0, 9, 0], BROKEN), (record(1, &[17]), LIMITS)] {
        let flat = Record {
            number,
            ..Record::default()
        };
        assert_eq!(Record::from(record_at(&log, 0)), flat);
    }
}

#[test]
fn reading_undoes_writing_in_the_middle_of_any_log() {
    for (before, after) in [
        (vec![], vec![]),
        (sample(), sample()),
        (vec![0xFF; 7], vec![0x00; 3]),
    ] {
        for (kind, body) in
            (1..=4).flat_map(|kind| lawful(kind).into_iter().map(move |b| (kind, b)))
        {
            let mut out = [0; 204];
            let length = put(kind.into(), &body, &mut out).length;
            let log = [&before, &out[..length], &after].concat();
            let (start, next) = (before.len() + 4, before.len() + length);
            let found = Found::Record {
                kind: Kind::of(kind.into()).unwrap(),
                body: start..next,
            };
            assert_eq!(record_at(&log, before.len()), Ok(found));
            assert_eq!(log[start..next], body);
        }
    }
}

#[test]
fn writing_undoes_reading() {
    let mut dice = Dice(3);
    let mut read = 0;
    for _ in 0..20_000 {
        let (before, bytes) = (dice.below(5), dice.record());
        let mut log = dice.bytes(before);
        log.extend(&bytes);
        if let Ok(Found::Record { kind, body }) = record_at(&log, before) {
            let mut out = vec![0; bytes.len()];
            put(kind.number().into(), &log[body], &mut out);
            assert_eq!(out, bytes);
            read += 1;
        }
    }
    assert!(read > 8_000, "{read}");
}

#[test]
fn a_log_of_written_records_has_one_reading() {
    let bodies = [
        (1, vec![9]),
        (2, vec![1; 132]),
        (3, vec![]),
        (4, vec![2; 200]),
    ];
    let mut dice = Dice(4);
    for _ in 0..500 {
        let chosen: Vec<_> = (0..9).map(|_| &bodies[dice.below(4)]).collect();
        let log = chosen
            .iter()
            .flat_map(|(kind, body)| record(*kind, body))
            .collect::<Vec<u8>>();
        let mut at = 0;
        for (kind, body) in chosen {
            let seen = Record::from(record_at(&log, at));
            assert_eq!(seen.kind, u32::from(*kind));
            assert_eq!(log[seen.body..seen.body + seen.body_len], *body);
            at = seen.next;
        }
        assert_eq!(record_at(&log, at), Ok(Found::End));
    }
}

#[test]
fn a_walk_counts_by_kind_and_stops_at_the_end() {
    let whole = Walk {
        at: sample().len(),
        sizes: 2,
        frames: 2,
        replies: 2,
        notes: 2,
        unknown: 2,
        ..Walk::default()
    };
    assert_eq!(walk(&sample()), whole);
    assert_eq!(walk(&[]), Walk::default());
}

#[test]
fn a_walk_stops_at_the_record_at_fault() {
    for (fault, number) in [
        (vec![1, 0, 2, 0], BROKEN),
        (vec![0, 9, 2, 0], BROKEN),
        (record(1, &[0]), LIMITS),
        (record(2, &[0; 133]), LIMITS),
        (record(4, &[0; 201]), LIMITS),
    ] {
        let log = [sample(), fault, record(2, &[])].concat();
        let stopped = Walk {
            number,
            ..walk(&sample())
        };
        assert_eq!(walk(&log), stopped);
    }
}

#[test]
fn a_walk_over_many_records_finishes() {
    let log = record(5, &[]).repeat(500_000);
    let whole = walk(&log);
    assert_eq!(
        (whole.number, whole.at, whole.unknown),
        (0, log.len(), 500_000)
    );
}

#[test]
fn every_cut_of_a_log_is_read_as_the_words_say() {
    let log = sample();
    for length in 0..=log.len() {
        hold(&log[..length]);
        let cut = walk(&log[..length]);
        assert_eq!(cut.number, if cut.at == length { 0 } else { BROKEN });
    }
}

#[test]
fn every_bit_flip_of_a_log_is_read_as_the_words_say() {
    each_flip(&sample(), hold);
}

#[test]
fn every_value_in_a_head_is_read_as_the_words_say() {
    let log = [record(1, &[16]), record(3, &[6; 9]), record(4, b"note")].concat();
    each_value(&log, (0..9).chain(18..23), hold);
}

#[test]
fn random_bytes_are_read_as_the_words_say() {
    let mut dice = Dice(1);
    for _ in 0..20_000 {
        let length = dice.below(40);
        let mut log = dice.bytes(length);
        hold(&log);
        log.iter_mut().for_each(|byte| *byte %= 6);
        hold(&log);
    }
}

#[test]
fn random_logs_are_read_as_the_words_say() {
    let mut dice = Dice(2);
    for _ in 0..1_500 {
        let mut log = Vec::new();
        for _ in 0..dice.below(8) {
            log.extend(dice.record());
        }
        hold(&log);
        log.truncate(dice.below(log.len() + 1));
        hold(&log);
    }
}
