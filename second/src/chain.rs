//! The chain model: 1 to 16 devices that hear one frame, change their registers and answer.

use crate::commands::{self, Command, Kind};
use crate::groups::{seal, COMMAND_GROUP, DATA, DATA_GROUP, SILENCE};
use crate::numbers::{self, require};
use crate::pec;

/// Bytes of state of one device: 18 groups of six, and the DTEN pin.
pub const DEVICE: usize = 109;

/// Where the pin lies in them.
const PIN: usize = 108;

const CFGA: usize = 0;

/// Bit 1 of CFGA's first byte: a read shows the pin there, and no write reaches what is stored.
const DTEN: u8 = 1 << 1;

#[derive(Clone, Copy, Debug, PartialEq, Eq)]
pub struct Heard {
    pub number: u8,
    pub word: u16,
}

/// Serves one frame on the lent state and answers as many bytes as the frame has.
pub fn serve(n: u32, frame: &[u8], state: &mut [u8], reply: &mut [u8]) -> Heard {
    let devices = match lent(n, frame.len(), state, reply.len()) {
        Ok(devices) => devices,
        Err(number) => return Heard { number, word: 0 },
    };
    let answer = &mut reply[..frame.len()];
    answer.fill(SILENCE);
    match understood(devices, frame) {
        Ok(command) => Heard {
            number: numbers::DONE,
            word: obey(command, &frame[COMMAND_GROUP..], state, answer),
        },
        Err(number) => Heard { number, word: 0 },
    }
}

fn lent(n: u32, frame: usize, state: &[u8], reply: usize) -> Result<usize, u8> {
    let devices = numbers::devices(n)?;
    let length = state.len() == DEVICE * devices;
    require(length && every_pin_is_a_bit(state), numbers::LENT_WRONG)?;
    require(reply >= frame, numbers::OUTPUT_SHORT)?;
    Ok(devices)
}

fn every_pin_is_a_bit(state: &[u8]) -> bool {
    state
        .chunks_exact(DEVICE)
        .all(|device| matches!(device[PIN], 0 | 1))
}

fn understood(devices: usize, frame: &[u8]) -> Result<Command, u8> {
    let group = frame
        .first_chunk::<COMMAND_GROUP>()
        .ok_or(numbers::FRAME_LENGTH)?;
    require(pec::right(group), numbers::COMMAND_PEC)?;
    let code = u32::from_be_bytes([0, 0, group[0], group[1]]);
    let command = commands::find(code).ok_or(numbers::UNKNOWN_COMMAND)?;
    let length = command.frame_length(devices);
    require(frame.len() == length, numbers::FRAME_LENGTH)?;
    Ok(command)
}

fn obey(command: Command, body: &[u8], state: &mut [u8], answer: &mut [u8]) -> u16 {
    match command.kind {
        Kind::Write => store(command.first, body, state),
        Kind::Read => {
            send(command.first, state, &mut answer[COMMAND_GROUP..]);
            0
        }
        Kind::Clear => {
            clear(command.first, command.last, state);
            every_device(state)
        }
        Kind::Convert => every_device(state),
    }
}

fn store(group: usize, body: &[u8], state: &mut [u8]) -> u16 {
    let mut word = 0;
    let from_last_device = state.chunks_exact_mut(DEVICE).enumerate().rev();
    for ((before, device), sent) in from_last_device.zip(body.chunks_exact(DATA_GROUP)) {
        if pec::right(sent) {
            write(device, group, &sent[..DATA]);
            word |= 1 << before;
        }
    }
    word
}

fn send(group: usize, state: &[u8], answer: &mut [u8]) {
    let places = answer.chunks_exact_mut(DATA_GROUP);
    for (device, place) in state.chunks_exact(DEVICE).zip(places) {
        seal(&read(device, group), place);
    }
}

fn write(device: &mut [u8], group: usize, sent: &[u8]) {
    let held = &mut device[DATA * group..][..DATA];
    let first = held[0];
    held.copy_from_slice(sent);
    if group == CFGA {
        held[0] = with_dten(held[0], first & DTEN);
    }
}

fn read(device: &[u8], group: usize) -> [u8; DATA] {
    let mut shown = [0; DATA];
    shown.copy_from_slice(&device[DATA * group..][..DATA]);
    if group == CFGA {
        shown[0] = with_dten(shown[0], device[PIN] << 1);
    }
    shown
}

fn with_dten(byte: u8, dten: u8) -> u8 {
    byte & !DTEN | dten
}

fn clear(first: usize, last: usize, state: &mut [u8]) {
    for device in state.chunks_exact_mut(DEVICE) {
        device[DATA * first..DATA * (last + 1)].fill(0xFF);
    }
}

fn every_device(state: &[u8]) -> u16 {
    (0..state.len() / DEVICE).fold(0, |word, before| word | 1 << before)
}
