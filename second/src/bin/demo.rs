//! Prints what is seen of fixed frames over a noisy wire, for chains of 1, 2 and 16 devices whose pins are 1 and 0 in turn.

use second::chain::serve;
use second::reader::read;
use second::writer::write;

const WRCFGA: u32 = 0x001;
const RDCFGA: u32 = 0x002;
const RDCVA: u32 = 0x004;
const CLRCELL: u32 = 0x711;
const ADCV: u32 = 0x360;

/// One byte that is hit on its way, and the bits of it that are flipped.
#[derive(Clone, Copy)]
struct Hit {
    at: usize,
    flips: u8,
}

const QUIET: Hit = Hit { at: 0, flips: 0 };
const COMMAND: Hit = Hit { at: 3, flips: 0x01 };
const FAR_GROUP: Hit = Hit { at: 4, flips: 0x80 };
const NEAR_ANSWER: Hit = Hit { at: 4, flips: 0x40 };

fn strike(bytes: &mut [u8], hit: Hit) {
    if let Some(byte) = bytes.get_mut(hit.at) {
        *byte ^= hit.flips;
    }
}

fn hex(bytes: &[u8]) -> String {
    bytes.iter().map(|byte| format!("{byte:02X}")).collect()
}

/// One frame: writer, noise out, chain, noise back, reader. The reader is lent room for 16 devices.
fn frame(n: u32, code: u32, data: &[u8], forth: Hit, back: Hit, state: &mut [u8]) {
    let (mut out, mut reply) = ([0; 132], [0; 132]);
    let (mut bytes, mut marks) = ([0xAA; 96], [0xAA; 16]);
    let written = write(n, code, data, &mut out);
    let passing = &mut out[..written.length];
    strike(passing, forth);
    let heard = serve(n, passing, state, &mut reply);
    let returning = &mut reply[..written.length];
    strike(returning, back);
    let asked = read(n, code, returning, &mut bytes, &mut marks);
    println!(
        "{n} {code:03X} {}:{:02X} {}:{:02X} : {} {} {:04X} {asked} {} {}",
        forth.at,
        forth.flips,
        back.at,
        back.flips,
        written.number,
        heard.number,
        heard.word,
        hex(&bytes),
        hex(&marks)
    );
}

/// Registers full of 7, and the pin.
fn device(pin: u8) -> [u8; 109] {
    let mut state = [7; 109];
    state[108] = pin;
    state
}

fn show(n: u32) {
    let size = 6 * n as usize;
    let old: Vec<u8> = (0x10..).take(size).collect();
    let new: Vec<u8> = (0x80..).take(size).collect();
    let mut state: Vec<u8> = [1, 0]
        .into_iter()
        .cycle()
        .take(n as usize)
        .flat_map(device)
        .collect();
    let frames: [(u32, &[u8], Hit, Hit); 16] = [
        (WRCFGA, &old, QUIET, QUIET),
        (RDCFGA, &[], QUIET, QUIET),
        (WRCFGA, &new, COMMAND, QUIET),
        (RDCFGA, &[], QUIET, QUIET),
        (WRCFGA, &new, FAR_GROUP, QUIET),
        (RDCFGA, &[], QUIET, QUIET),
        (RDCFGA, &[], QUIET, NEAR_ANSWER),
        (RDCFGA, &[], COMMAND, QUIET),
        (ADCV, &[], COMMAND, QUIET),
        (RDCVA, &[], QUIET, QUIET),
        (ADCV, &[], QUIET, QUIET),
        (RDCVA, &[], QUIET, QUIET),
        (CLRCELL, &[], COMMAND, QUIET),
        (RDCVA, &[], QUIET, QUIET),
        (CLRCELL, &[], QUIET, QUIET),
        (RDCVA, &[], QUIET, QUIET),
    ];
    for (code, data, forth, back) in frames {
        frame(n, code, data, forth, back, &mut state);
    }
}

fn main() {
    for n in [1, 2, 16] {
        show(n);
    }
}
