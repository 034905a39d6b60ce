//! The conversion commands: every code of 16 bits and above, all fields around their ranges, and what writer, chain and reader make
//! of each of the 368.

use crate::{beside, pattern, state_of};
use second::conversions::{conversion_of, Conversion};

const CODES: usize = 368;

fn codes() -> impl Iterator<Item = u32> {
    (0..=0x7FF).filter(|code| conversion_of(*code).number == 0)
}

/// What a number would lose if it were cut down.
const WIDER: [u32; 4] = [1 << 11, 1 << 16, 1 << 24, 1 << 31];

#[test]
fn every_code() {
    let mut known = 0;
    for code in 0..=0x1_FFFF {
        known += usize::from(beside::conversion_of(code).number == 0);
        assert_eq!(beside::conversion_of(u32::MAX - code).number, 2);
    }
    assert_eq!(known, CODES);
    for code in codes().flat_map(|code| WIDER.map(|more| code + more)) {
        assert_eq!(beside::conversion_of(code).number, 2);
    }
    beside::ran("conversion of every code");
}

#[test]
fn each_code_is_built_from_its_fields() {
    for code in codes() {
        let Conversion {
            command,
            mode,
            discharge,
            pull_up,
            choice,
            ..
        } = beside::conversion_of(code);
        let built = beside::conversion_code(command, mode, discharge, pull_up, choice);
        assert_eq!((built.number, u32::from(built.code)), (0, code));
    }
    beside::ran("each conversion code from its fields");
}

/// Every field up to two past the highest that any command has.
#[test]
fn fields_around_their_ranges() {
    let mut lawful = 0;
    for (command, mode) in (0..=14).flat_map(|command| (0..=5).map(move |mode| (command, mode))) {
        for (discharge, pull_up) in (0..=3).flat_map(|one| (0..=3).map(move |other| (one, other))) {
            for choice in 0..=8 {
                let built = beside::conversion_code(command, mode, discharge, pull_up, choice);
                lawful += usize::from(built.number == 0);
            }
        }
    }
    assert_eq!(lawful, CODES);
    beside::ran("fields around their ranges");
}

#[test]
fn fields_are_not_cut_down() {
    for code in codes() {
        let taken = conversion_of(code);
        let fields = [
            taken.command,
            taken.mode,
            taken.discharge,
            taken.pull_up,
            taken.choice,
        ];
        for at in 0..fields.len() {
            for more in [1 << 8].into_iter().chain(WIDER) {
                let mut fields = fields;
                fields[at] += more;
                let [command, mode, discharge, pull_up, choice] = fields;
                let built = beside::conversion_code(command, mode, discharge, pull_up, choice);
                assert_eq!((built.number, built.code), (9, 0));
            }
        }
    }
    beside::ran("fields are not cut down");
}

#[test]
fn every_conversion_on_every_chain() {
    for (n, code) in (1..=16u32).flat_map(|n| codes().map(move |code| (n, code))) {
        let devices = n as usize;
        let mut frame = vec![0; 9];
        assert_eq!(beside::write(n, code, &[], &mut frame).length, 4);
        assert_eq!(beside::write(n, code, &[0], &mut [0; 9]).number, 3);
        assert_eq!(beside::write(n, code, &[], &mut [0; 3]).number, 5);

        let before = state_of(n, code as usize);
        let (mut state, mut reply) = (before.clone(), vec![0; 7]);
        let heard = beside::chain(n, &frame[..4], &mut state, &mut reply);
        assert_eq!((heard.number, u32::from(heard.word)), (0, (1 << n) - 1));
        assert_eq!(state, before);
        assert_eq!(reply, [0xFF, 0xFF, 0xFF, 0xFF, 0, 0, 0]);
        let longer = beside::chain(n, &frame[..5], &mut state, &mut reply);
        assert_eq!((longer.number, longer.word), (6, 0));

        let (mut data, mut marks) = (pattern(6 * devices, 1), pattern(devices, 2));
        let answered = vec![0xFF; 4 + 8 * devices];
        for reply in [&answered, &reply] {
            let number = beside::read(n, code, reply, &mut data, &mut marks);
            assert_eq!(number, 7);
        }
    }
    beside::ran("every conversion on every chain");
}
