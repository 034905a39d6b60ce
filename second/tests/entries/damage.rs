//! Noise on frames and replies: every single flip, and a burst of up to 15 neighbouring bits from every bit.

use crate::{beside, commands, frame_of, state_of};
use second::chain;
use second::commands::{Command, COMMANDS};

fn flip(bytes: &mut [u8], bit: usize) {
    bytes[bit / 8] ^= 0x80 >> (bit % 8);
}

fn reply_of(n: u32, frame: &[u8]) -> Vec<u8> {
    let mut reply = vec![0; frame.len()];
    chain::serve(n, frame, &mut state_of(n, 9), &mut reply);
    reply
}

/// The chain hears the frame, and the reader gets the reply, both as the second implementation has them.
fn carried(n: u32, command: &Command, frame: &[u8], reply: &[u8], state: &mut [u8]) -> Vec<u8> {
    beside::chain(n, frame, state, &mut vec![0; frame.len()]);
    let (mut bytes, mut marks) = (vec![7; 6 * n as usize], vec![9; n as usize]);
    beside::read(n, u32::from(command.code), reply, &mut bytes, &mut marks);
    marks
}

#[test]
fn every_single_flip() {
    for (n, command) in (1..=16).flat_map(|n| commands().map(move |command| (n, command))) {
        let mut frame = frame_of(n, &command);
        let mut reply = reply_of(n, &frame);
        let mut state = state_of(n, 9);
        for bit in 0..8 * frame.len() {
            flip(&mut frame, bit);
            flip(&mut reply, bit);
            carried(n, &command, &frame, &reply, &mut state);
            flip(&mut frame, bit);
            flip(&mut reply, bit);
        }
    }
    beside::ran("every single flip");
}

/// A burst of `length` bits from `start`: both ends flip, and between them what `inside` says.
fn burst(bytes: &mut [u8], start: usize, length: usize, inside: usize) {
    for at in 0..length {
        if at == 0 || at + 1 == length || (inside >> (at % 13)) & 1 == 1 {
            flip(bytes, start + at);
        }
    }
}

/// A burst that lies within one device's group is never read, and no other device is concerned.
fn one_burst(n: u32, write: &Command, read: &Command, start: usize, length: usize) {
    let (mut out, mut back) = (frame_of(n, write), frame_of(n, read));
    let mut reply = reply_of(n, &back);
    let inside = start * 2_654_435_761 + length;
    burst(&mut out, start, length, inside);
    burst(&mut back, start, length, inside);
    burst(&mut reply, start, length, inside);
    let mut state = state_of(n, 9);
    beside::chain(n, &out, &mut state, &mut vec![0; out.len()]);
    let marks = carried(n, read, &back, &reply, &mut state);
    if start >= 32 && (start - 32) / 64 == (start + length - 1 - 32) / 64 {
        let hit = (start - 32) / 64;
        let read = |device: usize| marks[device] == 0;
        assert!(
            (0..n as usize).all(|device| read(device) != (device == hit)),
            "burst {start}, {length}"
        );
    }
}

#[test]
fn every_burst_start() {
    let (write, read) = (&COMMANDS[0], &COMMANDS[2]);
    assert_eq!((write.name, read.name), ("WRCFGA", "RDCVA"));
    for n in 1..=16u32 {
        let bits = 8 * (4 + 8 * n as usize);
        for (start, length) in
            (0..bits).flat_map(|start| (2..=15).map(move |length| (start, length)))
        {
            if start + length <= bits {
                one_burst(n, write, read, start, length);
            }
        }
    }
    beside::ran("every burst start");
}
