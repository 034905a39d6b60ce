//! The conversion commands: their ranges as 002 lists them, undoing both ways, and what writer, chain and reader make of them.

mod states;

use second::chain::{serve, Heard};
use second::commands::{find, Kind, COMMANDS};
use second::conversions::{conversion_code, conversion_of, Code, Conversion};
use second::groups::command_group;
use second::reader::read;
use second::writer::{write, Written};
use states::sound;

/// A command's name, its lowest code, the highest of MD, DCP and PUP, the ends of its choice, and how many codes it has.
type Listed = (&'static str, u16, [u32; 3], [u32; 2], usize);

const LISTED: [Listed; 13] = [
    ("ADCV", 0x260, [3, 1, 0], [0, 6], 56),
    ("ADOW", 0x228, [3, 1, 1], [0, 6], 112),
    ("CVST", 0x227, [3, 0, 0], [1, 2], 8),
    ("ADOL", 0x201, [3, 1, 0], [0, 0], 8),
    ("ADAX", 0x460, [3, 0, 0], [0, 6], 28),
    ("ADAXD", 0x400, [3, 0, 0], [0, 6], 28),
    ("AXOW", 0x410, [3, 0, 1], [0, 6], 56),
    ("AXST", 0x427, [3, 0, 0], [1, 2], 8),
    ("ADSTAT", 0x468, [3, 0, 0], [0, 4], 20),
    ("ADSTATD", 0x408, [3, 0, 0], [0, 4], 20),
    ("STATST", 0x42F, [3, 0, 0], [1, 2], 8),
    ("ADCVAX", 0x46F, [3, 1, 0], [0, 0], 8),
    ("ADCVSC", 0x467, [3, 1, 0], [0, 0], 8),
];

const CODES: usize = 368;

/// Codes that a field out of its range would give, and the other commands of Table 36 that start or stop something.
const NEAR: [u32; 22] = [
    0x267, 0x407, 0x40F, 0x207, 0x22F, 0x26F, 0x46D, 0x46E, 0x417, 0x457, 0x000, 0x003, 0x005,
    0x007, 0x018, 0x019, 0x028, 0x029, 0x713, 0x714, 0x715, 0x723,
];

const REFUSED: Code = Code { number: 9, code: 0 };

fn is_conversion(code: u32) -> bool {
    conversion_of(code).number == 0
}

fn codes() -> impl Iterator<Item = u32> {
    (0..=0x7FF).filter(|code| is_conversion(*code))
}

fn built(conversion: Conversion) -> Code {
    let Conversion {
        command,
        mode,
        discharge,
        pull_up,
        choice,
        ..
    } = conversion;
    conversion_code(command, mode, discharge, pull_up, choice)
}

/// Every command from 0 to 13 with every field from 0 to one above what any command has.
fn around() -> impl Iterator<Item = Conversion> {
    (0..14 * 5 * 3 * 3 * 8).map(|at| Conversion {
        number: 0,
        command: at / (5 * 3 * 3 * 8),
        mode: at / (3 * 3 * 8) % 5,
        discharge: at / (3 * 8) % 3,
        pull_up: at / 8 % 3,
        choice: at % 8,
    })
}

fn is_listed(conversion: &Conversion) -> bool {
    LISTED
        .get(conversion.command as usize)
        .is_some_and(|(_, _, most, choice, _)| {
            conversion.mode <= most[0]
                && conversion.discharge <= most[1]
                && conversion.pull_up <= most[2]
                && (choice[0]..=choice[1]).contains(&conversion.choice)
        })
}

#[test]
fn building_undoes_taking_apart() {
    for code in codes() {
        let expected = Code {
            number: 0,
            code: code as u16,
        };
        assert_eq!(built(conversion_of(code)), expected);
    }
    assert_eq!(codes().count(), CODES);
}

#[test]
fn no_code_above_eleven_bits_is_a_conversion() {
    assert!(!(0x800..=0x1_FFFF).any(is_conversion));
    for code in codes().flat_map(|code| [11, 15, 16, 31].map(|place| code | 1 << place)) {
        assert!(!is_conversion(code));
    }
    assert!(!is_conversion(u32::MAX));
}

#[test]
fn taking_apart_undoes_building_and_fields_keep_their_ranges() {
    let mut lawful = 0;
    for conversion in around() {
        let code = built(conversion);
        if is_listed(&conversion) {
            assert_eq!(code.number, 0, "{conversion:?}");
            assert_eq!(conversion_of(u32::from(code.code)), conversion);
            lawful += 1;
        } else {
            assert_eq!(code, REFUSED, "{conversion:?}");
        }
    }
    assert_eq!(lawful, CODES);
}

#[test]
fn each_command_has_its_own_codes() {
    for (command, (name, lowest, _, _, count)) in (0..).zip(LISTED) {
        let own: Vec<u32> = codes()
            .filter(|code| conversion_of(*code).command == command)
            .collect();
        assert_eq!((own[0], own.len()), (u32::from(lowest), count), "{name}");
        assert!(own.iter().all(|code| find(*code).unwrap().name == name));
    }
}

#[test]
fn formulas_are_the_stated_ones() {
    for (mode, choice) in (0..4).flat_map(|mode| (0..7).map(move |choice| (mode, choice))) {
        for discharge in 0..2 {
            let adcv = 0x260 + 0x80 * mode + 0x10 * discharge + choice;
            let code = conversion_code(0, mode, discharge, 0, choice);
            assert_eq!((code.number, u32::from(code.code)), (0, adcv));
        }
        let adax = 0x460 + 0x80 * mode + choice;
        let code = conversion_code(4, mode, 0, 0, choice);
        assert_eq!((code.number, u32::from(code.code)), (0, adax));
    }
}

#[test]
fn wide_numbers_are_not_cut_down() {
    for more in [1 << 8, 1 << 16, 1 << 24, 1 << 31] {
        for at in 0..5 {
            let mut fields = [0; 5];
            fields[at] = more;
            let [command, mode, discharge, pull_up, choice] = fields;
            let code = conversion_code(command, mode, discharge, pull_up, choice);
            assert_eq!(code, REFUSED);
        }
    }
}

#[test]
fn any_other_code_is_unknown_and_all_fields_are_zero() {
    let unknown = Conversion {
        number: 2,
        ..Conversion::default()
    };
    for code in NEAR.into_iter().chain([0x800, 0xFFFF, u32::MAX]) {
        assert_eq!(conversion_of(code), unknown, "{code:03X}");
    }
    for command in COMMANDS {
        assert_eq!(conversion_of(u32::from(command.code)), unknown);
    }
    for code in (0..=0xFFFF).filter(|code| !is_conversion(*code)) {
        assert_eq!(conversion_of(code), unknown);
        assert_eq!(
            find(code).is_some(),
            COMMANDS.iter().any(|row| u32::from(row.code) == code)
        );
    }
}

#[test]
fn codes_at_the_edge_of_another_range_are_read_one_way() {
    for (code, command) in [(0x467, 12), (0x46F, 11), (0x266, 0), (0x401, 5)] {
        assert_eq!(conversion_of(code).command, command);
    }
}

#[test]
fn writer_sends_a_conversion_as_four_bytes() {
    for (code, word) in [
        (0x260, 0x7C20u16),
        (0x360, 0xF46C),
        (0x460, 0x5BEC),
        (0x560, 0xD3A0),
        (0x468, 0xB3E2),
        (0x568, 0x3BAE),
    ] {
        let mut out = [0xAA; 6];
        let expected = Written {
            number: 0,
            length: 4,
        };
        assert_eq!(write(16, code, &[], &mut out), expected);
        assert_eq!(out[..2], (code as u16).to_be_bytes());
        assert_eq!(out[2..4], word.to_be_bytes());
        assert_eq!(out[4..], [0xAA; 2]);
    }
}

#[test]
fn writer_refuses_data_and_too_little_room() {
    for (n, code, data, room, number) in [
        (0, 0x360, 1, 0, 1),
        (1, 0x267, 1, 0, 2),
        (1, 0x360, 6, 3, 3),
        (1, 0x360, 1, 4, 3),
        (1, 0x360, 0, 3, 5),
        (16, 0x5FF, 0, 0, 5),
    ] {
        let mut out = vec![0xAA; room];
        let answer = write(n, code, &vec![0; data], &mut out);
        assert_eq!(answer, Written { number, length: 0 });
        assert_eq!(out, vec![0xAA; room]);
    }
}

#[test]
fn chain_hears_a_conversion_and_changes_no_register() {
    for n in 1..=16u32 {
        let before = sound((0..109 * n).map(|place| (place % 241) as u8).collect());
        for code in codes() {
            let mut state = before.clone();
            let mut reply = [0xAA; 7];
            let heard = serve(n, &command_group(code as u16), &mut state, &mut reply);
            let word = ((1u32 << n) - 1) as u16;
            assert_eq!(heard, Heard { number: 0, word });
            assert_eq!(state, before);
            assert_eq!(reply, [0xFF, 0xFF, 0xFF, 0xFF, 0xAA, 0xAA, 0xAA]);
        }
    }
}

#[test]
fn chain_refuses_a_conversion_of_another_length() {
    let mut frame = command_group(0x360).to_vec();
    frame.resize(12, 0xFF);
    for (length, number) in [(3, 6), (5, 6), (12, 6)] {
        let (mut state, mut reply) = ([1; 109], [0xAA; 13]);
        let heard = serve(1, &frame[..length], &mut state, &mut reply);
        assert_eq!(heard, Heard { number, word: 0 });
        assert_eq!(state, [1; 109]);
        assert!(reply[..length].iter().all(|byte| *byte == 0xFF));
    }
    frame[3] ^= 1;
    let heard = serve(1, &frame[..4], &mut [1; 109], &mut [0; 4]);
    assert_eq!(heard, Heard { number: 4, word: 0 });
}

#[test]
fn reader_has_nothing_to_read_of_a_conversion() {
    for (n, code) in (1..=16).flat_map(|n| codes().map(move |code| (n, code))) {
        assert_eq!(find(code).unwrap().kind, Kind::Convert);
        let (mut bytes, mut marks) = ([0xAA; 96], [0xAA; 16]);
        assert_eq!(read(n, code, &[0xFF; 4], &mut bytes, &mut marks), 7);
        assert_eq!((bytes, marks), ([0xAA; 96], [0xAA; 16]));
    }
    for (n, code, number) in [(0, 0x360, 1), (17, 0x360, 1), (1, 0x267, 2)] {
        assert_eq!(read(n, code, &[], &mut [], &mut []), number);
    }
}
