//! Records of a log laid by hand, and a log with each of some changes in turn.

/// A record by its words alone, of any kind and body.
pub fn record(kind: u16, body: &[u8]) -> Vec<u8> {
    let length = 2 + body.len();
    let mut bytes = vec![(length % 256) as u8, (length / 256) as u8];
    bytes.extend([(kind % 256) as u8, (kind / 256) as u8]);
    bytes.extend(body);
    bytes
}

/// The log with each of its bits flipped.
pub fn each_flip(log: &[u8], hold: impl Fn(&[u8])) {
    let mut log = log.to_vec();
    for place in 0..log.len() {
        for bit in 0..8 {
            log[place] ^= 1 << bit;
            hold(&log);
            log[place] ^= 1 << bit;
        }
    }
}

/// The log with each value of a byte at each of the places.
pub fn each_value(log: &[u8], places: impl Iterator<Item = usize>, hold: impl Fn(&[u8])) {
    let mut log = log.to_vec();
    for place in places {
        let was = log[place];
        for value in 0..=255 {
            log[place] = value;
            hold(&log);
        }
        log[place] = was;
    }
}
