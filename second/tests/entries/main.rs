//! Every C entry of the archive beside the second implementation. Built where RIG_LIB names the archive (`make test` does).

#![cfg(rig)]

mod beside;
mod cleared;
mod conversions;
mod damage;
mod dten;
mod random;
#[path = "../records/mod.rs"]
mod records;
mod refusals;
#[path = "../states/mod.rs"]
mod states;
mod wirelog;
#[path = "../words/mod.rs"]
mod words;

use second::commands::{find, Command, Kind, COMMANDS};
use second::writer;
use states::sound;

#[test]
fn printed_check_words() {
    for (bytes, word) in words::WORDS {
        assert_eq!(beside::pec(bytes), word, "{bytes:02X?}");
    }
    beside::ran("printed check words");
}

/// Bytes from a short rule, so that neighbours and devices differ.
pub fn pattern(length: usize, from: usize) -> Vec<u8> {
    (0..length)
        .map(|at| (at * 89 + from * 31 + 5) as u8)
        .collect()
}

/// The state of a chain from that rule, its pins 0 or 1.
pub fn state_of(n: u32, from: usize) -> Vec<u8> {
    sound(pattern(109 * n as usize, from))
}

/// The frame of a command as the second writer has it, with data from that rule.
pub fn frame_of(n: u32, command: &Command) -> Vec<u8> {
    let data = match command.kind {
        Kind::Write => pattern(6 * n as usize, command.first),
        Kind::Read | Kind::Clear | Kind::Convert => Vec::new(),
    };
    let mut frame = vec![0; 132];
    let written = writer::write(n, u32::from(command.code), &data, &mut frame);
    frame.truncate(written.length);
    frame
}

/// The 26 commands, and some conversions: ADCV, ADOW, CVST, AXOW, ADSTAT and ADCVAX.
pub fn commands() -> impl Iterator<Item = Command> {
    let conversions = [0x260, 0x3FE, 0x2C7, 0x555, 0x568, 0x5FF];
    COMMANDS
        .into_iter()
        .chain(conversions.map(|code| find(code).expect("it is a conversion code")))
}

/// Every command on every chain: written, heard, answered and read back.
#[test]
fn every_command_on_every_chain() {
    for n in 1..=16u32 {
        let devices = n as usize;
        let mut state = state_of(n, 1);
        for command in commands() {
            let code = u32::from(command.code);
            let data = match command.kind {
                Kind::Write => pattern(6 * devices, command.first),
                Kind::Read | Kind::Clear | Kind::Convert => Vec::new(),
            };
            let mut frame = vec![0; 140];
            let length = beside::write(n, code, &data, &mut frame).length;
            frame.truncate(length);
            let mut reply = vec![0; length + 3];
            let heard = beside::chain(n, &frame, &mut state, &mut reply);
            assert_eq!(heard.number, 0);
            reply.truncate(length);
            if command.kind == Kind::Read {
                let (mut bytes, mut marks) = (vec![0; 6 * devices + 1], vec![9; devices + 1]);
                assert_eq!(beside::read(n, code, &reply, &mut bytes, &mut marks), 0);
                assert!(marks[..devices].iter().all(|mark| *mark == 0));
            }
        }
    }
    beside::ran("every command on every chain");
}
