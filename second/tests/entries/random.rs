//! Random cases, long and short, right and damaged. RIG_SEED repeats a run, RIG_CASES says how many.

use crate::beside;
use crate::records::record;
use crate::states::sound;
use second::commands::{find, Command, Kind, COMMANDS};
use second::tally::Tally;
use second::writer;
use std::env;
use std::time::{SystemTime, UNIX_EPOCH};

/// Marsaglia's xorshift, 64 bits.
struct Dice(u64);

impl Dice {
    fn roll(&mut self) -> u64 {
        self.0 ^= self.0 << 13;
        self.0 ^= self.0 >> 7;
        self.0 ^= self.0 << 17;
        self.0
    }

    fn below(&mut self, limit: usize) -> usize {
        (self.roll() >> 11) as usize % limit
    }

    fn one_in(&mut self, many: usize) -> bool {
        self.below(many) == 0
    }

    fn bytes(&mut self, length: usize) -> Vec<u8> {
        (0..length).map(|_| self.roll() as u8).collect()
    }

    /// A right length, or now and then one near it, or any.
    fn length(&mut self, right: usize) -> usize {
        match self.below(24) {
            0 => right.saturating_sub(1),
            1 => right + 1,
            2 => self.below(right + 9),
            3 => right + self.below(40),
            _ => right,
        }
    }

    fn size(&mut self) -> u32 {
        match self.below(40) {
            0 => 0,
            1 => 17,
            2 => self.roll() as u32,
            _ => 1 + self.below(16) as u32,
        }
    }

    fn code(&mut self) -> u32 {
        match self.below(20) {
            0 => self.roll() as u32,
            1 => self.below(2048) as u32,
            _ => u32::from(self.command().code),
        }
    }

    fn command(&mut self) -> Command {
        if self.one_in(6) {
            self.conversion()
        } else {
            COMMANDS[self.below(COMMANDS.len())]
        }
    }

    fn conversion(&mut self) -> Command {
        loop {
            if let Some(command) = find(0x200 + self.below(0x400) as u32) {
                return command;
            }
        }
    }

    /// A number within a field's range, or now and then one near it, or any.
    fn field(&mut self, most: usize) -> u32 {
        match self.below(40) {
            0 => self.roll() as u32,
            1 => 1 << self.below(32),
            _ => self.below(most + 2) as u32,
        }
    }

    /// A flip, a burst of up to 15 bits, a byte at random, silence to the end, or none of these.
    fn damage(&mut self, bytes: &mut [u8]) {
        if bytes.is_empty() {
            return;
        }
        let at = self.below(bytes.len());
        match self.below(6) {
            0 => bytes[at] ^= 1 << self.below(8),
            1 => self.burst(bytes),
            2 => bytes[at] = self.roll() as u8,
            3 => bytes[at..].fill(0xFF),
            _ => {}
        }
    }

    fn burst(&mut self, bytes: &mut [u8]) {
        let start = self.below(8 * bytes.len());
        let pattern = self.roll() | 1;
        for bit in (start..8 * bytes.len()).take(15) {
            bytes[bit / 8] ^= (((pattern >> (bit - start)) & 1) as u8) << (7 - bit % 8);
        }
    }
}

/// What a chain asks for, bounded where the size is refused.
fn devices(n: u32) -> usize {
    n.min(17) as usize
}

fn random_write(dice: &mut Dice) {
    let (n, code) = (dice.size(), dice.code());
    let writes = find(code).is_some_and(|command| command.kind == Kind::Write);
    let needed = if writes { 6 * devices(n) } else { 0 };
    let data = dice.length(needed);
    let out = dice.length(4 + 8 * devices(n));
    let (data, mut out) = (dice.bytes(data), dice.bytes(out));
    beside::write(n, code, &data, &mut out);
}

/// A frame as the second writer has it, then damaged, cut or grown now and then.
fn some_frame(dice: &mut Dice, n: u32) -> Vec<u8> {
    let command = dice.command();
    let needed = if command.kind == Kind::Write {
        6 * n as usize
    } else {
        0
    };
    let data = dice.bytes(needed);
    let mut frame = vec![0; 132];
    let written = writer::write(n, u32::from(command.code), &data, &mut frame);
    frame.truncate(written.length);
    dice.damage(&mut frame);
    let length = dice.length(frame.len());
    frame.resize(length, 0xFF);
    frame
}

/// A state whose pins are 0 or 1, but now and then one of them above.
fn some_state(dice: &mut Dice, length: usize) -> Vec<u8> {
    let mut state = sound(dice.bytes(length));
    if length >= 109 && dice.one_in(12) {
        let before = dice.below(length / 109);
        state[109 * before + 108] = 2 + dice.below(254) as u8;
    }
    state
}

/// Frames on registers that are carried along, each answered, its reply damaged and read.
fn random_link(dice: &mut Dice) {
    let n = 1 + dice.below(16) as u32;
    let mut state = some_state(dice, 109 * n as usize);
    for _ in 0..3 {
        let frame = some_frame(dice, n);
        let reply = dice.length(frame.len());
        let mut reply = dice.bytes(reply);
        beside::chain(n, &frame, &mut state, &mut reply);
        dice.damage(&mut reply);
        let (data, marks) = (dice.length(6 * n as usize), dice.length(n as usize));
        let (mut data, mut marks) = (dice.bytes(data), dice.bytes(marks));
        beside::read(n, dice.code(), &reply, &mut data, &mut marks);
    }
}

fn random_refused_chain(dice: &mut Dice) {
    let n = dice.size();
    let state = dice.length(109 * devices(n));
    let mut state = some_state(dice, state);
    let frame = dice.below(150);
    let reply = dice.length(frame);
    let (frame, mut reply) = (dice.bytes(frame), dice.bytes(reply));
    beside::chain(n, &frame, &mut state, &mut reply);
}

fn random_read(dice: &mut Dice) {
    let n = dice.size();
    let (reply, data) = (dice.length(4 + 8 * devices(n)), dice.length(6 * devices(n)));
    let mut reply = vec![0xFF; reply];
    for group in reply.chunks_exact_mut(4).skip(1) {
        if dice.one_in(3) {
            group.copy_from_slice(&dice.bytes(4));
        }
    }
    let marks = dice.length(devices(n));
    let (mut data, mut marks) = (dice.bytes(data), dice.bytes(marks));
    beside::read(n, dice.code(), &reply, &mut data, &mut marks);
}

fn some_marks(dice: &mut Dice, right: usize) -> Vec<u8> {
    let length = dice.length(right);
    let high = if dice.one_in(8) { 4 } else { 3 };
    (0..length).map(|_| dice.below(high) as u8).collect()
}

/// Cells at random, one in four of them at 65,535 or 65,534.
fn some_cells(dice: &mut Dice) -> Vec<u8> {
    let length = dice.length(36);
    let mut groups = dice.bytes(length);
    for cell in groups.chunks_exact_mut(2) {
        if dice.one_in(4) {
            cell.copy_from_slice(&[0xFE + dice.below(2) as u8, 0xFF]);
        }
    }
    groups
}

fn random_cells_and_tally(dice: &mut Dice) {
    let (groups, marks) = (some_cells(dice), some_marks(dice, 6));
    beside::cells(&groups, &marks);
    let mut counts = [0; 4].map(|_: u32| dice.roll() as u32);
    if dice.one_in(2) {
        counts[dice.below(4)] = u32::MAX - dice.below(20) as u32;
    }
    let [replies, read, wrong, silent] = counts;
    let right = 1 + dice.below(16);
    let marks = some_marks(dice, right);
    beside::tally_add(
        &mut Tally {
            replies,
            read,
            wrong,
            silent,
        },
        &marks,
    );
}

fn random_word_and_wake(dice: &mut Dice) {
    let length = if dice.one_in(50) {
        dice.below(2000)
    } else {
        dice.below(20)
    };
    beside::pec(&dice.bytes(length));
    let (n, last) = (dice.size(), dice.roll() as u32);
    let gap = if dice.one_in(2) {
        dice.roll() as u32
    } else {
        4_290 + dice.below(20) as u32
    };
    beside::wake(n, last, last.wrapping_add(gap));
}

fn random_conversion(dice: &mut Dice) {
    let [command, mode, discharge, pull_up, choice] = [12, 3, 1, 1, 6].map(|most| dice.field(most));
    let built = beside::conversion_code(command, mode, discharge, pull_up, choice);
    beside::conversion_of(u32::from(built.code));
    beside::conversion_of(dice.code());
    beside::conversion_of(dice.roll() as u32);
}

fn random_put(dice: &mut Dice) {
    let kind = dice.field(4);
    let most = match kind {
        1 => 1,
        2 | 3 => 132,
        _ => 200,
    };
    let near = if dice.one_in(2) { most } else { 5 };
    let body = dice.length(near);
    let out = dice.length(4 + body);
    let (mut body, mut out) = (dice.bytes(body), dice.bytes(out));
    if kind == 1 && body.len() == 1 {
        body[0] = dice.below(18) as u8;
    }
    beside::log_put(kind, &body, &mut out);
}

/// Lawful records laid by hand, with kinds that are not known in between.
fn some_log(dice: &mut Dice) -> Vec<u8> {
    let mut log = Vec::new();
    for _ in 0..dice.below(7) {
        let kind = dice.below(6) as u16;
        let length = match kind {
            1 => 1,
            0 | 5 => dice.below(300),
            2 | 3 => dice.below(133),
            _ => dice.below(201),
        };
        let body: Vec<u8> = (0..length).map(|_| 1 + dice.below(16) as u8).collect();
        log.extend(record(kind, &body));
    }
    log
}

fn random_log(dice: &mut Dice) {
    random_put(dice);
    let mut log = some_log(dice);
    dice.damage(&mut log);
    if dice.one_in(4) {
        log.truncate(dice.below(log.len() + 1));
    }
    let (near, far) = (dice.below(log.len() + 3), dice.roll() as usize);
    let mut lent = beside::Log::new(&log);
    let stopped = lent.walk().at;
    for place in [0, stopped, near, far, usize::MAX - near] {
        lent.at(place);
    }
}

fn number_of(name: &str, otherwise: u64) -> u64 {
    match env::var(name) {
        Ok(word) => word
            .parse()
            .unwrap_or_else(|_| panic!("{name}={word}: it has to be a whole number")),
        Err(_) => otherwise,
    }
}

#[test]
fn random_cases() {
    let clock = SystemTime::now()
        .duration_since(UNIX_EPOCH)
        .expect("the clock stands after 1970");
    let seed = number_of("RIG_SEED", clock.as_nanos() as u64).max(1);
    let cases = number_of("RIG_CASES", 1_200_000);
    println!("   random: {cases} cases, RIG_SEED={seed}");
    let mut dice = Dice(seed);
    for case in 1..=cases {
        match dice.below(8) {
            0 => random_write(&mut dice),
            1 => random_link(&mut dice),
            2 => random_refused_chain(&mut dice),
            3 => random_read(&mut dice),
            4 => random_cells_and_tally(&mut dice),
            5 => random_conversion(&mut dice),
            6 => random_log(&mut dice),
            _ => random_word_and_wake(&mut dice),
        }
        if case % (cases / 6).max(1) == 0 {
            println!("   random: {case} of {cases}");
        }
    }
    beside::ran("random cases");
}
