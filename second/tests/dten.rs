//! The DTEN pin: read in bit 1 of CFGA's first byte and nowhere else, out of reach of every frame, and 0 or 1 or the state is refused.

mod states;

use second::chain::{serve, Heard};
use second::commands::{find, Command, Kind, COMMANDS};
use second::groups::command_group;
use second::pec::right;
use second::reader::read;
use second::writer::write;
use states::sound;

const WRCFGA: u32 = 0x001;
const RDCFGA: u32 = 0x002;
const BIT_1: u8 = 0x02;

/// The four pairs of a pin and a stored bit, the bit in its place.
const PINS_AND_BITS: [(u8, u8); 4] = [(0, 0), (0, BIT_1), (1, 0), (1, BIT_1)];

/// Where device k has its pin.
fn pin_at(k: usize) -> usize {
    109 * (k - 1) + 108
}

fn state_of(n: u32) -> Vec<u8> {
    let bytes = (0..109 * n).map(|place| (place * 37 % 251) as u8);
    sound(bytes.collect())
}

/// The same pin and the same stored bit for every device.
fn state_with(n: u32, (pin, bit): (u8, u8)) -> Vec<u8> {
    let mut state = state_of(n);
    for device in state.chunks_mut(109) {
        device[0] = device[0] & !BIT_1 | bit;
        device[108] = pin;
    }
    state
}

/// The bytes of CFGA that a device with this pin shows.
fn through(pin: u8, cfga: &[u8]) -> Vec<u8> {
    let mut shown = cfga.to_vec();
    shown[0] = if pin == 1 {
        cfga[0] | BIT_1
    } else {
        cfga[0] & !BIT_1
    };
    shown
}

/// Six bytes for each device, beginning with `first`.
fn data_from(n: u32, first: u8) -> Vec<u8> {
    (0..6 * n)
        .map(|at| (u32::from(first) + 29 * at) as u8)
        .collect()
}

fn frame_of(n: u32, code: u32, data: &[u8]) -> Vec<u8> {
    let mut frame = vec![0; 132];
    let written = write(n, code, data, &mut frame);
    assert_eq!(written.number, 0);
    frame.truncate(written.length);
    frame
}

/// The reply to a frame that is taken.
fn answered(n: u32, frame: &[u8], state: &mut [u8]) -> Vec<u8> {
    let mut reply = vec![0xAA; frame.len()];
    assert_eq!(serve(n, frame, state, &mut reply).number, 0);
    reply
}

/// Six bytes for each device, as the host reads them.
fn read_back(n: u32, code: u32, state: &mut [u8]) -> Vec<u8> {
    let reply = answered(n, &frame_of(n, code, &[]), state);
    let (mut bytes, mut marks) = (vec![0xAA; 6 * n as usize], vec![0xAA; n as usize]);
    assert_eq!(read(n, code, &reply, &mut bytes, &mut marks), 0);
    assert_eq!(marks, vec![0; n as usize]);
    bytes
}

/// The 26 commands, and the first and the last conversion.
fn commands() -> impl Iterator<Item = Command> {
    COMMANDS
        .into_iter()
        .chain([0x201, 0x5FF].map(|code| find(code).unwrap()))
}

/// The frames of a command: one, or for a write one with every bit set and one with every bit clear.
fn frames_of(n: u32, command: &Command) -> Vec<Vec<u8>> {
    let code = u32::from(command.code);
    match command.kind {
        Kind::Write => [0x00, 0xFF]
            .map(|byte| frame_of(n, code, &vec![byte; 6 * n as usize]))
            .to_vec(),
        _ => vec![frame_of(n, code, &[])],
    }
}

/// A frame, and what can come in its place: a wrong closing bit, a group hit, one byte less and one more, an unknown code, a cut.
fn and_damaged(frame: Vec<u8>) -> Vec<Vec<u8>> {
    let hit = |place: usize, flips: u8| {
        let mut hit = frame.clone();
        hit[place] ^= flips;
        hit
    };
    let longer = [&frame[..], &[0xFF]].concat();
    let unknown = [&command_group(0x003), &frame[4..]].concat();
    let shorter = frame[..frame.len() - 1].to_vec();
    vec![
        hit(3, 0x01),
        hit(frame.len() - 1, 0x01),
        shorter,
        longer,
        unknown,
        frame[..3].to_vec(),
        frame,
    ]
}

#[test]
fn cfga_reads_back_as_written_with_the_pin_in_bit_1() {
    for n in 1..=16u32 {
        for (first, (pin, bit)) in
            (0..=255u8).flat_map(|first| PINS_AND_BITS.map(|pair| (first, pair)))
        {
            let mut state = state_with(n, (pin, bit));
            let data = data_from(n, first);
            answered(n, &frame_of(n, WRCFGA, &data), &mut state);
            let seen: Vec<u8> = data.chunks(6).flat_map(|one| through(pin, one)).collect();
            assert_eq!(read_back(n, RDCFGA, &mut state), seen);
            for (device, sent) in state.chunks(109).zip(data.chunks(6)) {
                assert_eq!(device[0], sent[0] & !BIT_1 | bit);
                assert_eq!(device[1..6], sent[1..]);
            }
        }
    }
}

#[test]
fn every_first_byte_shows_the_pin_of_its_own_device() {
    for (first, pin) in (0..=255).flat_map(|first| [(first, 0), (first, 1)]) {
        let mut state = state_of(3);
        (state[109], state[pin_at(2)]) = (first, pin);
        (state[pin_at(1)], state[pin_at(3)]) = (1 - pin, 1 - pin);
        let bytes = read_back(3, RDCFGA, &mut state);
        assert_eq!(bytes[..6], through(1 - pin, &state[..6]));
        assert_eq!(bytes[6..12], through(pin, &state[109..115]));
        assert_eq!(bytes[12..], through(1 - pin, &state[218..224]));
    }
}

#[test]
fn no_frame_changes_the_stored_bit_or_the_pin() {
    for (n, command) in [1, 2, 3, 16]
        .into_iter()
        .flat_map(|n| commands().map(move |command| (n, command)))
    {
        let frames = frames_of(n, &command).into_iter().flat_map(and_damaged);
        for (frame, pair) in
            frames.flat_map(|frame| PINS_AND_BITS.map(|pair| (frame.clone(), pair)))
        {
            for room in [frame.len(), frame.len() - 1] {
                let mut state = state_with(n, pair);
                serve(n, &frame, &mut state, &mut vec![0; room]);
                for device in state.chunks(109) {
                    assert_eq!((device[108], device[0] & BIT_1), pair);
                }
            }
        }
    }
}

#[test]
fn of_a_wrong_group_no_bit_is_stored() {
    for pair in PINS_AND_BITS {
        let before = state_with(2, pair);
        let mut state = before.clone();
        let mut frame = frame_of(2, WRCFGA, &[0x5A; 12]);
        frame[11] ^= 0x01;
        let heard = serve(2, &frame, &mut state, &mut [0; 20]);
        assert_eq!(heard, Heard { number: 0, word: 1 });
        assert_eq!(state[6..], before[6..]);
        assert_eq!(state[0], 0x5A & !BIT_1 | before[0] & BIT_1);
        assert_eq!(state[1..6], [0x5A; 5]);
    }
}

/// Every value of the pin of every device, with frames that are taken and frames that would be refused, and rooms too short.
#[test]
fn a_pin_above_1_is_refused_before_the_reply_and_the_frame_are_looked_at() {
    for n in [1, 2, 3, 15, 16] {
        let frames = [
            frame_of(n, RDCFGA, &[]),
            frame_of(n, WRCFGA, &vec![0x5A; 6 * n as usize]),
            frame_of(n, 0x711, &[]),
            frame_of(n, 0x360, &[]),
            vec![0x07, 0x11, 0xC9],
            vec![0x07, 0x11, 0xC9, 0xC1],
            vec![0x00, 0x17, 0x4A, 0x88],
        ]
        .into_iter()
        .zip([0, 0, 0, 0, 6, 4, 2]);
        for (k, pin) in (1..=n as usize).flat_map(|k| (0..=255).map(move |pin| (k, pin))) {
            let mut before = state_of(n);
            before[pin_at(k)] = pin;
            for (frame, number) in frames.clone() {
                holds_to_the_pin(n, &frame, &before, (frame.len() + 1, number), pin);
                holds_to_the_pin(n, &frame, &before, (frame.len() - 1, 5), pin);
                holds_to_the_pin(n, &frame, &before, (0, 5), pin);
            }
        }
    }
}

/// With a pin of 0 or 1 the frame comes to its own number.
fn holds_to_the_pin(n: u32, frame: &[u8], before: &[u8], (room, number): (usize, u8), pin: u8) {
    let (mut state, mut reply) = (before.to_vec(), vec![0xAA; room]);
    let heard = serve(n, frame, &mut state, &mut reply);
    if pin > 1 {
        assert_eq!(heard, Heard { number: 3, word: 0 });
        assert_eq!(state, before);
        assert_eq!(reply, vec![0xAA; room]);
    } else {
        assert_eq!(heard.number, number);
    }
}

#[test]
fn the_size_is_looked_at_before_the_pins() {
    for n in [0, 17, 257, u32::MAX] {
        for devices in [0, 1, 16, 17] {
            let mut state = vec![0xFF; 109 * devices];
            let heard = serve(n, &[], &mut state, &mut []);
            assert_eq!(heard, Heard { number: 1, word: 0 });
        }
    }
}

#[test]
fn a_state_of_another_length_is_refused_whatever_its_pins_are() {
    let frame = command_group(0x711);
    for n in 1..=16 {
        let right = 109 * n as usize;
        for length in (0..right + 220).filter(|length| *length != right) {
            for byte in [0x00, 0x01, 0x02, 0xFF] {
                let (mut state, mut reply) = (vec![byte; length], [0xAA; 4]);
                let heard = serve(n, &frame, &mut state, &mut reply);
                assert_eq!(heard, Heard { number: 3, word: 0 });
                assert_eq!(state, vec![byte; length]);
                assert_eq!(reply, [0xAA; 4]);
            }
        }
    }
}

#[test]
fn every_other_group_is_read_as_it_is_stored() {
    for (n, pin) in (1..=16u32).flat_map(|n| [(n, 0), (n, 1)]) {
        for command in COMMANDS {
            if command.kind == Kind::Read && command.first != 0 {
                let mut state = state_with(n, (pin, 0));
                let bytes = read_back(n, u32::from(command.code), &mut state);
                for (device, given) in state.chunks(109).zip(bytes.chunks(6)) {
                    assert_eq!(given, &device[6 * command.first..][..6]);
                }
            }
        }
    }
}

/// CFGB, COMM, SCTRL, PWM and PSB.
#[test]
fn every_other_group_reads_back_as_it_was_written() {
    for (write_code, read_code) in [
        (0x024, 0x026),
        (0x721, 0x722),
        (0x014, 0x016),
        (0x020, 0x022),
        (0x01C, 0x01E),
    ] {
        for (first, pair) in (0..=255u8).flat_map(|first| PINS_AND_BITS.map(|pair| (first, pair))) {
            let mut state = state_with(2, pair);
            let data = data_from(2, first);
            answered(2, &frame_of(2, write_code, &data), &mut state);
            assert_eq!(read_back(2, read_code, &mut state), data);
        }
    }
}

/// Of two chains that differ in the pin of device k, what each gives for a frame.
#[test]
fn a_pin_is_seen_in_one_bit_of_its_own_cfga_and_nowhere_else() {
    for (n, command) in (1..=16u32).flat_map(|n| commands().map(move |command| (n, command))) {
        for (frame, k) in frames_of(n, &command)
            .into_iter()
            .flat_map(and_damaged)
            .flat_map(|frame| (1..=n as usize).map(move |k| (frame.clone(), k)))
        {
            let (mut low, mut high) = (state_of(n), state_of(n));
            (low[pin_at(k)], high[pin_at(k)]) = (0, 1);
            let (mut at_low, mut at_high) = (vec![0xAA; frame.len()], vec![0xAA; frame.len()]);
            let heard = serve(n, &frame, &mut low, &mut at_low);
            assert_eq!(heard, serve(n, &frame, &mut high, &mut at_high));
            if heard.number == 0 && u32::from(command.code) == RDCFGA {
                differs_in_its_group(k, &mut at_low, &mut at_high);
            }
            assert_eq!(at_low, at_high);
            assert_eq!((low[pin_at(k)], high[pin_at(k)]), (0, 1));
            low[pin_at(k)] = 1;
            assert_eq!(low, high);
        }
    }
}

/// Bit 1 and the check word differ; both groups are then made silent.
fn differs_in_its_group(k: usize, low: &mut [u8], high: &mut [u8]) {
    let place = 4 + 8 * (k - 1);
    let (low, high) = (&mut low[place..][..8], &mut high[place..][..8]);
    assert!(right(low) && right(high));
    assert_eq!((low[0] & BIT_1, high[0]), (0, low[0] | BIT_1));
    assert_eq!(low[1..6], high[1..6]);
    assert_ne!(low[6..], high[6..]);
    low.fill(0xFF);
    high.fill(0xFF);
}
