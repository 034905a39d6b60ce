//! The two sorts of group a frame is made of, with their check words as they stand on the wire.

pub const COMMAND_GROUP: usize = 4;
pub const DATA_GROUP: usize = 8;
pub const DATA: usize = 6;
pub const SILENCE: u8 = 0xFF;

/// Two command bytes and their check word.
pub fn command_group(code: u16) -> [u8; COMMAND_GROUP] {
    let mut group = [0; COMMAND_GROUP];
    seal(&code.to_be_bytes(), &mut group);
    group
}

/// Lays `bytes` and their check word into `group`, as far as it reaches.
pub fn seal(bytes: &[u8], group: &mut [u8]) {
    let word = crate::pec::pec(bytes).to_be_bytes();
    for (place, byte) in group.iter_mut().zip(bytes.iter().chain(&word)) {
        *place = *byte;
    }
}
