//! The DTEN pin: every value of it at every device, every first byte of CFGA written and read, and every row of pins under every
//! command.

use crate::{beside, commands, frame_of, pattern, state_of};
use second::commands::{find, Command};

const WRCFGA: u32 = 0x001;
const RDCFGA: u32 = 0x002;
const BIT_1: u8 = 0x02;

fn command(code: u32) -> Command {
    find(code).expect("it is a code of the table")
}

/// Above 1 a pin is refused, and with a reply too short as well.
#[test]
fn every_value_of_a_pin() {
    for n in [1, 2, 16] {
        for code in [RDCFGA, WRCFGA] {
            let frame = frame_of(n, &command(code));
            for (before, pin) in (0..n as usize).flat_map(|k| (0..=255).map(move |pin| (k, pin))) {
                for (room, otherwise) in [(frame.len() + 2, 0), (frame.len() - 1, 5)] {
                    let mut state = state_of(n, 7);
                    state[109 * before + 108] = pin;
                    let heard = beside::chain(n, &frame, &mut state, &mut pattern(room, 2));
                    assert_eq!(heard.number, if pin > 1 { 3 } else { otherwise });
                }
            }
        }
    }
    beside::ran("every value of a pin");
}

/// The pins of a chain from the bits of `row`, and the stored bits from those of `stored`.
fn set(state: &mut [u8], row: u32, stored: u32) {
    for (before, device) in state.chunks_exact_mut(109).enumerate() {
        device[108] = ((row >> before) & 1) as u8;
        device[0] = device[0] & !BIT_1 | (((stored >> before) & 1) as u8) << 1;
    }
}

/// Written and read back: the pin in bit 1, and the bit that was stored still there.
fn written_and_read(n: u32, first: u8, row: u32, stored: u32) {
    let devices = n as usize;
    let data: Vec<u8> = (0..6 * n)
        .map(|at| (u32::from(first) + 29 * at) as u8)
        .collect();
    let mut frame = vec![0; 4 + 8 * devices];
    let mut state = state_of(n, 3);
    set(&mut state, row, stored);
    beside::write(n, WRCFGA, &data, &mut frame);
    beside::chain(n, &frame, &mut state, &mut pattern(frame.len(), 1));
    let mut reply = pattern(frame.len(), 2);
    beside::chain(n, &frame_of(n, &command(RDCFGA)), &mut state, &mut reply);
    let (mut bytes, mut marks) = (vec![7; 6 * devices], vec![9; devices]);
    beside::read(n, RDCFGA, &reply, &mut bytes, &mut marks);
    assert_eq!(marks, vec![0; devices]);
    for (before, (given, sent)) in bytes.chunks(6).zip(data.chunks(6)).enumerate() {
        let (pin, bit) = ((row >> before) & 1, (stored >> before) & 1);
        assert_eq!(given[0], sent[0] & !BIT_1 | (pin as u8) << 1);
        assert_eq!(given[1..], sent[1..]);
        assert_eq!(state[109 * before], sent[0] & !BIT_1 | (bit as u8) << 1);
        assert_eq!(state[109 * before + 108], pin as u8);
    }
}

#[test]
fn every_first_byte_of_cfga() {
    for (n, first) in [1, 2, 16]
        .into_iter()
        .flat_map(|n| (0..=255).map(move |first| (n, first)))
    {
        for row in [0x0000, 0x5555, 0xAAAA, 0xFFFF] {
            written_and_read(n, first, row, 0x3333);
            written_and_read(n, first, row, 0xCCCC);
        }
    }
    beside::ran("every first byte of CFGA");
}

/// Chains of up to eight devices; no command changes a pin.
#[test]
fn every_row_of_pins() {
    for (n, command) in (1..=8).flat_map(|n| commands().map(move |command| (n, command))) {
        let frame = frame_of(n, &command);
        for row in 0..1 << n {
            let mut state = state_of(n, 5);
            set(&mut state, row, row / 3);
            let heard = beside::chain(n, &frame, &mut state, &mut pattern(frame.len(), 4));
            assert_eq!(heard.number, 0);
            for (before, device) in state.chunks_exact(109).enumerate() {
                assert_eq!(u32::from(device[108]), (row >> before) & 1);
            }
        }
    }
    beside::ran("every row of pins");
}
