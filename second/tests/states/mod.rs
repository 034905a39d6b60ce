//! States of a chain: 109 bytes a device, the last of them its pin.

/// `bytes` as a state, with the lowest bit of each pin for the pin.
pub fn sound(mut bytes: Vec<u8>) -> Vec<u8> {
    for pin in bytes.iter_mut().skip(108).step_by(109) {
        *pin &= 1;
    }
    bytes
}
