//! The pieces that frames, replies and data of the cases are put together from, and their hex form.

use second::groups::{command_group, seal};

pub enum Piece {
    /// A command group with its right check word.
    C(u16),
    /// A data group with its right check word.
    D([u8; 6]),
    /// Clock bytes for a number of devices.
    K(usize),
    Bytes(&'static [u8]),
    Fill(u8, usize),
}

/// A change of the byte at the first number by the bits of the second.
pub type Flip = (usize, u8);

pub fn joined(pieces: &[Piece], flips: &[Flip]) -> Vec<u8> {
    let mut bytes: Vec<u8> = pieces.iter().flat_map(laid_out).collect();
    for (place, bits) in flips {
        bytes[*place] ^= bits;
    }
    bytes
}

fn laid_out(piece: &Piece) -> Vec<u8> {
    match piece {
        Piece::C(code) => command_group(*code).to_vec(),
        Piece::D(bytes) => {
            let mut group = [0; 8];
            seal(bytes, &mut group);
            group.to_vec()
        }
        Piece::K(devices) => vec![0xFF; 8 * devices],
        Piece::Bytes(bytes) => bytes.to_vec(),
        Piece::Fill(byte, count) => vec![*byte; *count],
    }
}

/// Two digits for each byte, or a dash for none.
pub fn hex(bytes: &[u8]) -> String {
    if bytes.is_empty() {
        return "-".to_string();
    }
    bytes.iter().map(|byte| format!("{byte:02X}")).collect()
}
