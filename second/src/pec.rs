//! The check word (PEC): its bit-by-bit definition, the rule of a table entry, and the test of a whole group.

const START: u16 = 16;
const POLYNOMIAL: u16 = 0x4599;
const WHOLE_POLYNOMIAL: u32 = 0xC599;
const FIFTEEN_BITS: u16 = 0x7FFF;

fn step(remainder: u16, bit: u16) -> u16 {
    let shifted = (remainder << 1) & FIFTEEN_BITS;
    if (remainder >> 14) ^ bit == 1 {
        shifted ^ POLYNOMIAL
    } else {
        shifted
    }
}

/// The check word as it is sent: the remainder times 2.
pub fn pec(bytes: &[u8]) -> u16 {
    let mut remainder = START;
    for byte in bytes {
        for place in (0..8).rev() {
            remainder = step(remainder, u16::from(byte >> place) & 1);
        }
    }
    remainder * 2
}

/// `i` times x^15, reduced by the whole polynomial.
pub fn entry(i: u8) -> u16 {
    let mut product = u32::from(i) << 15;
    for place in (15..23).rev() {
        if (product >> place) & 1 == 1 {
            product ^= WHOLE_POLYNOMIAL << (place - 15);
        }
    }
    product as u16
}

/// Whether the last two bytes are, in all 16 bits, the check word of those before them.
pub fn right(group: &[u8]) -> bool {
    match group.split_last_chunk::<2>() {
        Some((bytes, sent)) => u16::from_be_bytes(*sent) == pec(bytes),
        None => false,
    }
}
