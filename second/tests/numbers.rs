//! The numbers of document 01, the vectors of the data sheets, each refusal in its order, and the traps.

mod states;
mod words;

use second::cells::{cells, extremes, Extremes, Readings};
use second::chain::{serve, Heard};
use second::commands::{find, Kind, COMMANDS};
use second::groups::{command_group, seal};
use second::pec::{entry, pec, right};
use second::reader::read;
use second::tally::{add, Tally};
use second::wake::{wake, Wait};
use second::writer::{write, Written};
use states::sound;
use words::WORDS;

/// Document 01's table: group, write code (0 for none) and read code.
const GROUPS: [(usize, u32, u32); 18] = [
    (0, 0x001, 0x002),
    (1, 0x024, 0x026),
    (2, 0, 0x004),
    (3, 0, 0x006),
    (4, 0, 0x008),
    (5, 0, 0x00A),
    (6, 0, 0x009),
    (7, 0, 0x00B),
    (8, 0, 0x00C),
    (9, 0, 0x00E),
    (10, 0, 0x00D),
    (11, 0, 0x00F),
    (12, 0, 0x010),
    (13, 0, 0x012),
    (14, 0x721, 0x722),
    (15, 0x014, 0x016),
    (16, 0x020, 0x022),
    (17, 0x01C, 0x01E),
];

const CFGA_ZEROS: [u8; 12] = [
    0x00, 0x01, 0x3D, 0x6E, 0x00, 0x00, 0x00, 0x00, 0x00, 0x00, 0xC2, 0x12,
];

fn data_group(bytes: [u8; 6]) -> [u8; 8] {
    let mut group = [0; 8];
    seal(&bytes, &mut group);
    group
}

fn state_of(devices: usize) -> Vec<u8> {
    let bytes = (0..109 * devices).map(|place| (place * 13 % 241) as u8);
    sound(bytes.collect())
}

fn written(n: u32, code: u32, data: &[u8]) -> Vec<u8> {
    let mut out = [0xAA; 132];
    let answer = write(n, code, data, &mut out);
    assert_eq!(answer.number, 0);
    assert!(out[answer.length..].iter().all(|byte| *byte == 0xAA));
    out[..answer.length].to_vec()
}

/// A refused writer leaves the output alone and gives length 0.
fn refuses_write(n: u32, code: u32, data: &[u8], room: usize, number: u8) {
    let mut out = vec![0xAA; room];
    let answer = write(n, code, data, &mut out);
    assert_eq!(answer, Written { number, length: 0 });
    assert_eq!(out, vec![0xAA; room]);
}

/// A refused chain keeps its state, here of bytes 1; of the reply the first `filled` bytes turn to 0xFF.
fn refuses_frame(n: u32, frame: &[u8], lent: (usize, usize), number: u8, filled: usize) {
    let (state_length, reply_length) = lent;
    let mut state = vec![1; state_length];
    let mut reply = vec![0xAA; reply_length];
    let answer = serve(n, frame, &mut state, &mut reply);
    assert_eq!(answer, Heard { number, word: 0 });
    assert_eq!(state, vec![1; state_length]);
    let (silent, untouched) = reply.split_at(filled);
    assert!(silent.iter().all(|byte| *byte == 0xFF));
    assert!(untouched.iter().all(|byte| *byte == 0xAA));
}

/// A refused reader leaves both outputs alone.
fn refuses_reply(n: u32, code: u32, reply: usize, lent: (usize, usize), number: u8) {
    let mut bytes = vec![0xAA; lent.0];
    let mut marks = vec![0xAA; lent.1];
    let reply = vec![0xFF; reply];
    assert_eq!(read(n, code, &reply, &mut bytes, &mut marks), number);
    assert_eq!(bytes, vec![0xAA; lent.0]);
    assert_eq!(marks, vec![0xAA; lent.1]);
}

#[test]
fn check_words_are_the_printed_ones() {
    for (bytes, word) in WORDS {
        assert_eq!(pec(bytes), word, "{bytes:02X?}");
    }
}

#[test]
fn table_entries_are_the_printed_ones() {
    assert_eq!(entry(1), 0x4599);
    assert_eq!(entry(2), 0x4EAB);
    assert_eq!(entry(128), 0x2213);
}

#[test]
fn a_table_of_entries_gives_the_bitwise_word() {
    for first in 0..=255u8 {
        for second in [0x00, 0x01, 0x7F, 0x80, 0xA5, 0xFF] {
            let bytes = [first, second];
            let by_table = bytes.iter().fold(16u16, |remainder, byte| {
                let index = (remainder >> 7) as u8 ^ byte;
                ((remainder << 8) & 0x7FFF) ^ entry(index)
            });
            assert_eq!(by_table * 2, pec(&bytes));
        }
    }
}

#[test]
fn a_group_is_right_only_in_all_sixteen_bits() {
    for (bytes, word) in WORDS {
        let mut group = bytes.to_vec();
        group.extend(word.to_be_bytes());
        assert!(right(&group));
        for bit in 0..16 {
            let mut hit = bytes.to_vec();
            hit.extend((word ^ (1 << bit)).to_be_bytes());
            assert!(!right(&hit));
        }
    }
    assert!(!right(&[]));
    assert!(!right(&[0x00]));
}

#[test]
fn commands_are_the_twenty_six_of_the_table_and_the_conversions() {
    let mut listed = 0;
    for (group, write, read) in GROUPS {
        for (code, kind) in [(write, Kind::Write), (read, Kind::Read)] {
            if code != 0 {
                let command = find(code).unwrap();
                assert_eq!((command.kind, command.first), (kind, group));
                assert_eq!(command.last, group);
                listed += 1;
            }
        }
    }
    for (code, first, last) in [(0x711, 2, 7), (0x712, 8, 11)] {
        let command = find(code).unwrap();
        assert_eq!(command.kind, Kind::Clear);
        assert_eq!((command.first, command.last), (first, last));
        listed += 1;
    }
    assert_eq!(listed, COMMANDS.len());
    let known = (0..=0x1_FFFF).filter_map(find);
    let registers = known.filter(|command| command.kind != Kind::Convert);
    assert_eq!(registers.count(), COMMANDS.len());
    assert!(find(u32::MAX).is_none());
}

#[test]
fn command_table_ascends() {
    assert!(COMMANDS.is_sorted_by(|one, next| one.code < next.code));
}

#[test]
fn names_and_codes_out_of_order_are_kept_apart() {
    for (code, name, group) in [
        (0x009, "RDCVE", 6),
        (0x00A, "RDCVD", 5),
        (0x00D, "RDAUXC", 10),
        (0x00E, "RDAUXB", 9),
    ] {
        let command = find(code).unwrap();
        assert_eq!((command.name, command.first), (name, group));
    }
}

#[test]
fn writer_gives_the_printed_frame() {
    assert_eq!(written(1, 0x001, &[0; 6]), CFGA_ZEROS);
}

#[test]
fn writer_sends_the_last_device_first() {
    let device_1 = [0x01, 0x02, 0x03, 0x04, 0x05, 0x06];
    let device_2 = [0xE8, 0x18, 0x0F, 0x0F, 0x0F, 0x0F];
    let frame = written(2, 0x001, &[device_1, device_2].concat());
    assert_eq!(frame[..4], [0x00, 0x01, 0x3D, 0x6E]);
    assert_eq!(
        frame[4..12],
        [0xE8, 0x18, 0x0F, 0x0F, 0x0F, 0x0F, 0xC6, 0x02]
    );
    assert_eq!(frame[12..], data_group(device_1));
}

#[test]
fn writer_clocks_a_read_and_closes_a_clear() {
    let frame = written(3, 0x004, &[]);
    assert_eq!(frame[..4], [0x00, 0x04, 0x07, 0xC2]);
    assert_eq!(frame[4..], [0xFF; 24]);
    assert_eq!(written(16, 0x711, &[]), [0x07, 0x11, 0xC9, 0xC0]);
    assert_eq!(written(16, 0x001, &[0; 96]).len(), 132);
}

#[test]
fn writer_refuses_in_its_order() {
    refuses_write(0, 0x003, &[0], 0, 1);
    refuses_write(17, 0x003, &[0], 0, 1);
    refuses_write(u32::MAX, 0x003, &[0], 0, 1);
    refuses_write(1, 0x003, &[0], 0, 2);
    refuses_write(1, 0x801, &[0; 6], 12, 2);
    refuses_write(1, 0x1_0001, &[0; 6], 12, 2);
    refuses_write(1, 0x001, &[0], 0, 3);
    refuses_write(2, 0x001, &[0; 6], 20, 3);
    refuses_write(1, 0x002, &[0; 6], 12, 3);
    refuses_write(1, 0x711, &[0; 6], 12, 3);
    refuses_write(1, 0x001, &[0; 6], 11, 5);
    refuses_write(1, 0x002, &[], 11, 5);
    refuses_write(1, 0x711, &[], 3, 5);
    refuses_write(16, 0x001, &[0; 96], 131, 5);
}

#[test]
fn chain_refuses_in_its_order() {
    let cut = [0x07, 0x11, 0xC9];
    refuses_frame(0, &cut, (108, 0), 1, 0);
    refuses_frame(17, &cut, (1853, 0), 1, 0);
    refuses_frame(1, &cut, (108, 0), 3, 0);
    refuses_frame(1, &cut, (110, 0), 3, 0);
    refuses_frame(2, &cut, (109, 0), 3, 0);
    refuses_frame(1, &cut, (109, 2), 5, 0);
    refuses_frame(1, &cut, (109, 5), 6, 3);
    refuses_frame(1, &[], (109, 5), 6, 0);
    refuses_frame(1, &[0x00, 0x03, 0x00, 0x00, 0x00], (109, 5), 4, 5);
    refuses_frame(1, &[0x00, 0x17, 0x4A, 0x88, 0x00], (109, 5), 2, 5);
    refuses_frame(1, &[0x00, 0x01, 0x3D, 0x6E, 0x00], (109, 9), 6, 5);
    refuses_frame(1, &[0x07, 0x11, 0xC9, 0xC0, 0x00], (109, 9), 6, 5);
    refuses_frame(1, &[0x00; 1000], (109, 1001), 4, 1000);
}

#[test]
fn the_closing_bit_counts() {
    let mut frame = CFGA_ZEROS;
    frame[3] = 0x6F;
    refuses_frame(1, &frame, (109, 12), 4, 12);
}

#[test]
fn sixteen_neighbouring_bits_can_pass_the_check() {
    let other = 0x0000_B65Cu32;
    let difference = other ^ 0x0001_3D6E;
    assert_eq!(
        32 - difference.leading_zeros() - difference.trailing_zeros(),
        16
    );
    let mut frame = CFGA_ZEROS;
    frame[..4].copy_from_slice(&other.to_be_bytes());
    assert!(right(&frame[..4]));
    refuses_frame(1, &frame, (109, 12), 2, 12);
}

#[test]
fn printed_groups_with_top_bits_or_unlisted_codes_are_unknown() {
    for group in [
        [0xF8, 0x04, 0x09, 0x70],
        [0xFB, 0x60, 0xFA, 0xDE],
        [0xFE, 0xF3, 0xC7, 0x98],
        [0xFE, 0xF5, 0xEB, 0x50],
        [0x17, 0x00, 0x75, 0x12],
        [0x11, 0x12, 0x94, 0xA6],
        [0x00, 0x17, 0x4A, 0x88],
    ] {
        refuses_frame(1, &group, (109, 6), 2, 4);
    }
}

#[test]
fn top_bits_hide_every_listed_code() {
    for command in COMMANDS {
        for top in 1..32u16 {
            let group = command_group(command.code | top << 11);
            refuses_frame(1, &group, (109, 4), 2, 4);
        }
    }
}

#[test]
fn every_command_does_its_own_work_on_every_device() {
    for n in 1..=16u32 {
        let devices = n as usize;
        for command in COMMANDS {
            let given: usize = if command.kind == Kind::Write {
                6 * devices
            } else {
                0
            };
            let data: Vec<u8> = (0..given).map(|place| place as u8 ^ 0x5A).collect();
            let frame = written(n, u32::from(command.code), &data);
            let before = state_of(devices);
            let mut state = before.clone();
            let mut reply = vec![0xAA; frame.len() + 1];
            let heard = serve(n, &frame, &mut state, &mut reply);
            let all = ((1u32 << n) - 1) as u16;
            let word = if command.kind == Kind::Read { 0 } else { all };
            assert_eq!(heard, Heard { number: 0, word });
            assert_eq!(reply[frame.len()], 0xAA);
            for (place, byte) in state.iter().enumerate() {
                let (device, group, at) = (place / 109, place % 109 / 6, place % 109 % 6);
                let reached = (command.first..=command.last).contains(&group);
                let kept = if (group, at) == (0, 0) { 0x02 } else { 0x00 };
                let expected = match command.kind {
                    Kind::Write if reached => data[6 * device + at] & !kept | before[place] & kept,
                    Kind::Clear if reached => 0xFF,
                    _ => before[place],
                };
                assert_eq!(*byte, expected);
            }
        }
    }
}

#[test]
fn every_read_hands_back_the_group_of_every_device() {
    for (group, _, code) in GROUPS {
        for n in 1..=16u32 {
            let devices = n as usize;
            let frame = written(n, code, &[]);
            let mut state = state_of(devices);
            let mut reply = vec![0xAA; frame.len()];
            serve(n, &frame, &mut state, &mut reply);
            assert_eq!(reply[..4], [0xFF; 4]);
            let mut bytes = vec![0xAA; 6 * devices + 1];
            let mut marks = vec![0xAA; devices + 1];
            assert_eq!(read(n, code, &reply, &mut bytes, &mut marks), 0);
            for (device, given) in state.chunks(109).zip(bytes.chunks(6)) {
                let mut held = device[6 * group..][..6].to_vec();
                if group == 0 {
                    held[0] = held[0] & 0xFD | device[108] << 1;
                }
                assert_eq!(given, held);
            }
            assert_eq!(marks[..devices], vec![0; devices]);
            assert_eq!((bytes[6 * devices], marks[devices]), (0xAA, 0xAA));
        }
    }
}

#[test]
fn writes_and_clears_answer_silence() {
    let mut state = state_of(2);
    for frame in [written(2, 0x721, &[7; 12]), written(2, 0x712, &[])] {
        let mut reply = vec![0xAA; 30];
        assert_eq!(serve(2, &frame, &mut state, &mut reply).number, 0);
        let (answered, rest) = reply.split_at(frame.len());
        assert!(answered.iter().all(|byte| *byte == 0xFF));
        assert!(rest.iter().all(|byte| *byte == 0xAA));
    }
}

#[test]
fn clock_bytes_are_not_looked_at() {
    let mut frame = written(2, 0x00A, &[]);
    frame[4..].fill(0x00);
    let mut state = state_of(2);
    let mut reply = [0xAA; 20];
    assert_eq!(
        serve(2, &frame, &mut state, &mut reply),
        Heard { number: 0, word: 0 }
    );
    assert_eq!(reply[4..10], state[30..36]);
    assert_eq!(reply[12..18], state[139..145]);
}

#[test]
fn each_device_checks_only_its_own_group() {
    let n = 16;
    let data: Vec<u8> = (0..96).map(|place| place + 100).collect();
    for hit in [0u16, 1, 0x8000, 0x0102, 0x7FFF, 0xFFFF] {
        let mut frame = written(n, 0x020, &data);
        for before in (0..16).filter(|before| hit >> before & 1 == 1) {
            frame[4 + 8 * (15 - before) + 7] ^= 0x01;
        }
        let old = state_of(16);
        let mut state = old.clone();
        let mut reply = [0; 132];
        let heard = serve(n, &frame, &mut state, &mut reply);
        assert_eq!(
            heard,
            Heard {
                number: 0,
                word: !hit
            }
        );
        for before in 0..16 {
            let place = 109 * before + 96;
            let expected = if hit >> before & 1 == 1 {
                &old[place..place + 6]
            } else {
                &data[6 * before..][..6]
            };
            assert_eq!(&state[place..place + 6], expected);
        }
    }
}

#[test]
fn a_zero_check_word_is_a_check_word() {
    let mut frame = vec![0x00, 0x20, 0x00, 0x00];
    frame.extend(data_group([0xA1; 6]));
    let mut state = state_of(1);
    let mut reply = [0; 12];
    assert_eq!(
        serve(1, &frame, &mut state, &mut reply),
        Heard { number: 0, word: 1 }
    );
    assert_eq!(state[96..102], [0xA1; 6]);
}

#[test]
fn reader_takes_the_printed_groups() {
    for (bytes, word) in WORDS.iter().filter(|(bytes, _)| bytes.len() == 6) {
        let mut reply = vec![0xFF; 4];
        reply.extend(*bytes);
        reply.extend(word.to_be_bytes());
        let (mut given, mut marks) = ([0xAA; 6], [0xAA; 1]);
        assert_eq!(read(1, 0x004, &reply, &mut given, &mut marks), 0);
        assert_eq!((&given[..], marks), (*bytes, [0]));
    }
}

#[test]
fn reader_judges_each_device_alone() {
    let mut reply = vec![0x12; 4];
    reply.extend(data_group([1; 6]));
    reply.extend([0xFF; 8]);
    reply.extend(data_group([3; 6]));
    *reply.last_mut().unwrap() ^= 0x01;
    let (mut bytes, mut marks) = ([0xAA; 20], [0xAA; 5]);
    assert_eq!(read(3, 0x009, &reply, &mut bytes, &mut marks), 0);
    assert_eq!(bytes[..6], [1; 6]);
    assert_eq!(bytes[6..18], [0; 12]);
    assert_eq!(bytes[18..], [0xAA; 2]);
    assert_eq!(marks, [0, 2, 1, 0xAA, 0xAA]);
}

#[test]
fn almost_silent_is_wrong_and_not_silent() {
    for place in 4..12 {
        let mut reply = [0xFF; 12];
        reply[place] = 0xFE;
        let (mut bytes, mut marks) = ([0xAA; 6], [0xAA; 1]);
        assert_eq!(read(1, 0x004, &reply, &mut bytes, &mut marks), 0);
        assert_eq!((bytes, marks), ([0; 6], [1]));
    }
}

#[test]
fn reader_refuses_in_its_order() {
    refuses_reply(0, 0x003, 0, (0, 0), 1);
    refuses_reply(17, 0x003, 0, (0, 0), 1);
    refuses_reply(u32::MAX, 0x003, 0, (0, 0), 1);
    refuses_reply(1, 0x003, 0, (0, 0), 2);
    refuses_reply(1, 0x804, 12, (6, 1), 2);
    refuses_reply(1, 0x1_0004, 12, (6, 1), 2);
    refuses_reply(1, 0x001, 0, (0, 0), 7);
    refuses_reply(1, 0x711, 4, (0, 0), 7);
    refuses_reply(1, 0x004, 11, (0, 0), 3);
    refuses_reply(1, 0x004, 13, (6, 1), 3);
    refuses_reply(2, 0x004, 12, (12, 2), 3);
    refuses_reply(1, 0x004, 12, (5, 1), 5);
    refuses_reply(1, 0x004, 12, (6, 0), 5);
    refuses_reply(16, 0x004, 132, (95, 16), 5);
    refuses_reply(16, 0x004, 132, (96, 15), 5);
}

fn cell_bytes(counts: [u16; 18]) -> Vec<u8> {
    counts.into_iter().flat_map(u16::to_le_bytes).collect()
}

fn done(counts: [u16; 18], valid: u32, unmeasured: u32) -> Readings {
    Readings {
        number: 0,
        counts,
        valid,
        unmeasured,
    }
}

#[test]
fn cell_bytes_are_low_first() {
    let mut groups = [0; 36];
    groups[..2].copy_from_slice(&[0x10, 0xA4]);
    let readings = cells(&groups, &[0; 6]);
    assert_eq!(readings.counts[0], 42_000);
    assert_eq!((readings.number, readings.valid), (0, 0x3FFFF));
}

#[test]
fn cells_of_an_unread_group_are_not_valid() {
    let groups: Vec<u8> = (1..=18u16).flat_map(u16::to_le_bytes).collect();
    let readings = cells(&groups, &[0, 1, 2, 0, 2, 0]);
    let counts = [1, 2, 3, 0, 0, 0, 0, 0, 0, 10, 11, 12, 0, 0, 0, 16, 17, 18];
    let valid = 0b111_000_111_000_000_111;
    assert_eq!(readings, done(counts, valid, 0));
}

#[test]
fn every_count_up_to_65_534_is_a_reading() {
    for count in 0..=65_534 {
        let readings = cells(&cell_bytes([count; 18]), &[0; 6]);
        assert_eq!(readings, done([count; 18], 0x3FFFF, 0));
    }
}

#[test]
fn a_clear_reads_as_before_and_its_cells_are_not_measured() {
    let mut state = state_of(1);
    let mut reply = [0; 12];
    serve(1, &written(1, 0x711, &[]), &mut state, &mut reply);
    let (mut groups, mut marks) = ([0xAA; 36], [0xAA; 6]);
    let places = groups.chunks_exact_mut(6).zip(marks.chunks_exact_mut(1));
    for ((_, _, code), (group, mark)) in GROUPS[2..8].iter().zip(places) {
        serve(1, &written(1, *code, &[]), &mut state, &mut reply);
        assert_eq!(read(1, *code, &reply, group, mark), 0);
    }
    assert_eq!((groups, marks), ([0xFF; 36], [0; 6]));
    assert_eq!(cells(&groups, &marks), done([0; 18], 0, 0x3FFFF));
}

#[test]
fn cells_of_an_unread_group_are_not_unmeasured_either() {
    for mark in [1, 2] {
        assert_eq!(cells(&[0xFF; 36], &[mark; 6]), done([0; 18], 0, 0));
    }
}

#[test]
fn each_cell_of_a_group_is_measured_or_not_on_its_own() {
    let mut held = [33_000; 18];
    (held[0], held[4], held[5], held[17]) = (65_535, 65_535, 65_534, 65_535);
    (held[6], held[10]) = (65_535, 65_535);
    let mut counts = [33_000; 18];
    (counts[0], counts[4], counts[5], counts[17]) = (0, 0, 65_534, 0);
    counts[6..12].fill(0);
    let valid = 0b011_111_000_000_101_110;
    let unmeasured = 0b100_000_000_000_010_001;
    assert_eq!(
        cells(&cell_bytes(held), &[0, 0, 1, 2, 0, 0]),
        done(counts, valid, unmeasured)
    );
}

#[test]
fn refused_cells_give_zeros() {
    let refused = Readings {
        number: 3,
        counts: [0; 18],
        valid: 0,
        unmeasured: 0,
    };
    assert_eq!(cells(&[], &[]), refused);
    assert_eq!(cells(&[1; 35], &[0; 6]), refused);
    assert_eq!(cells(&[1; 37], &[0; 6]), refused);
    assert_eq!(cells(&[1; 36], &[0; 5]), refused);
    assert_eq!(cells(&[1; 36], &[0; 7]), refused);
    assert_eq!(cells(&[1; 36], &[0, 0, 0, 0, 0, 3]), refused);
    assert_eq!(cells(&[1; 36], &[255, 0, 0, 0, 0, 0]), refused);
    assert_eq!(cells(&[0xFF; 35], &[0; 6]), refused);
    assert_eq!(cells(&[0xFF; 36], &[0; 5]), refused);
    assert_eq!(cells(&[0xFF; 36], &[0, 0, 0, 0, 0, 3]), refused);
}

#[test]
fn extremes_are_the_first_of_equals() {
    let mut counts = [500; 18];
    (counts[3], counts[9]) = (100, 100);
    (counts[5], counts[17]) = (900, 900);
    let found = |lowest_cell, lowest, highest_cell, highest| {
        Some(Extremes {
            lowest_cell,
            lowest,
            highest_cell,
            highest,
        })
    };
    assert_eq!(extremes(&counts, 0x3FFFF), found(4, 100, 6, 900));
    assert_eq!(
        extremes(&counts, 0x3FFFF ^ 1 << 3 ^ 1 << 5),
        found(10, 100, 18, 900)
    );
    assert_eq!(extremes(&counts, 0b111), found(1, 500, 1, 500));
    assert_eq!(extremes(&counts, 1 << 17), found(18, 900, 18, 900));
    assert_eq!(extremes(&counts, u32::MAX), found(4, 100, 6, 900));
    assert_eq!(extremes(&counts, 0), None);
    assert_eq!(extremes(&counts, !0x3FFFF), None);
}

#[test]
fn extremes_pass_over_unmeasured_cells() {
    let mut held = [65_535; 18];
    (held[7], held[12]) = (65_534, 1);
    let readings = cells(&cell_bytes(held), &[0; 6]);
    let found = Extremes {
        lowest_cell: 13,
        lowest: 1,
        highest_cell: 8,
        highest: 65_534,
    };
    assert_eq!(extremes(&readings.counts, readings.valid), Some(found));
    let cleared = cells(&[0xFF; 36], &[0; 6]);
    assert_eq!(extremes(&cleared.counts, cleared.valid), None);
}

fn tally(counts: [u32; 4]) -> Tally {
    let [replies, read, wrong, silent] = counts;
    Tally {
        replies,
        read,
        wrong,
        silent,
    }
}

fn adds(before: [u32; 4], marks: &[u8], number: u8, after: [u32; 4]) {
    let mut lent = tally(before);
    assert_eq!(add(&mut lent, marks), number);
    assert_eq!(lent, tally(after));
}

#[test]
fn tally_counts_replies_and_marks() {
    adds([0; 4], &[0, 1, 2, 0], 0, [1, 2, 1, 1]);
    adds([5, 6, 7, 8], &[2; 16], 0, [6, 6, 7, 24]);
    adds([5, 6, 7, 8], &[1], 0, [6, 6, 8, 8]);
}

#[test]
fn tally_refuses_in_its_order() {
    let full = [u32::MAX; 4];
    adds(full, &[], 1, full);
    adds(full, &[3; 17], 1, full);
    adds(full, &[0, 3], 3, full);
    adds(full, &[255], 3, full);
    adds(full, &[0], 8, full);
    adds([0, u32::MAX, 0, 0], &[0], 8, [0, u32::MAX, 0, 0]);
    adds([0, u32::MAX, 0, 0], &[1, 2], 0, [1, u32::MAX, 1, 1]);
    adds(
        [0, 0, u32::MAX - 15, 0],
        &[1; 16],
        8,
        [0, 0, u32::MAX - 15, 0],
    );
    adds([0, 0, u32::MAX - 16, 0], &[1; 16], 0, [1, 0, u32::MAX, 0]);
    adds([0, 0, 0, u32::MAX], &[2], 8, [0, 0, 0, u32::MAX]);
    adds([u32::MAX - 1, 0, 0, 0], &[0], 0, [u32::MAX, 1, 0, 0]);
}

#[test]
fn wake_runs_past_the_end_of_the_clock() {
    let done = |wait| Wait { number: 0, wait };
    assert_eq!(wake(16, 4_294_967_000, 4_003), done(0));
    assert_eq!(wake(16, 4_294_967_000, 4_004), done(160));
    assert_eq!(wake(1, 0, 4_299), done(0));
    assert_eq!(wake(1, 0, 4_300), done(10));
    assert_eq!(wake(1, 5, 4), done(10));
    assert_eq!(wake(1, 7, 7), done(0));
}

#[test]
fn refused_wake_waits_not() {
    for n in [0, 17, u32::MAX] {
        assert_eq!(wake(n, 0, 5_000), Wait { number: 1, wait: 0 });
    }
}

/// A plain row of numbers that looks disordered and is the same on every run.
struct Disorder(u64);

impl Disorder {
    fn below(&mut self, limit: usize) -> usize {
        self.0 = self
            .0
            .wrapping_mul(6_364_136_223_846_793_005)
            .wrapping_add(1);
        (self.0 >> 33) as usize % limit
    }

    fn bytes(&mut self, below: usize) -> Vec<u8> {
        let length = self.below(below);
        (0..length).map(|_| self.below(256) as u8).collect()
    }
}

/// A frame of any bytes, every other time behind a command group that is right.
fn any_frame(any: &mut Disorder) -> Vec<u8> {
    let mut frame = any.bytes(140);
    if any.below(2) == 0 {
        let code = COMMANDS[any.below(26)].code + any.below(2) as u16;
        frame.splice(..0, command_group(code));
    }
    frame
}

#[test]
fn calls_of_every_sort_come_back() {
    let mut any = Disorder(1);
    for _ in 0..20_000 {
        let n = any.below(20) as u32;
        let code = any.below(0x730) as u32;
        let (mut one, mut other) = (any.bytes(140), any.bytes(140));
        let given = any.bytes(140);
        assert!([0, 1, 2, 3, 5].contains(&write(n, code, &given, &mut one).number));
        assert!([0, 1, 2, 3, 5, 7].contains(&read(n, code, &given, &mut one, &mut other)));
        assert!([0, 3].contains(&cells(&given, &one).number));
        assert!([0, 1, 3, 8].contains(&add(&mut Tally::default(), &given)));
        assert!([0, 1].contains(&wake(n, code, u32::MAX).number));
        let mut state = state_of(n as usize);
        let frame = any_frame(&mut any);
        assert!([0, 1, 2, 4, 5, 6].contains(&serve(n, &frame, &mut state, &mut other).number));
    }
}
