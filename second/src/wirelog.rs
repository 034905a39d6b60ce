//! The wire log: what passed, as a row of records by which builders can send it.

use crate::numbers::{self, require};
use crate::writer::Written;
use std::ops::Range;

const LENGTH: usize = 2;
const KIND: usize = 2;
const HEAD: usize = LENGTH + KIND;
const LONGEST_FRAME: usize = 132;
const LONGEST_NOTE: usize = 200;

#[derive(Clone, Copy, Debug, PartialEq, Eq)]
pub enum Kind {
    Size,
    Frame,
    Reply,
    Note,
}

/// What stands at a place of a log.
#[derive(Clone, Debug, PartialEq, Eq)]
pub enum Found {
    /// A record of a known kind, and where its body lies; the next record stands at the body's end.
    Record {
        kind: Kind,
        body: Range<usize>,
    },
    /// A record whose body has no meaning here.
    Unknown {
        kind: u16,
        next: usize,
    },
    End,
}

/// What stands at a place of a log or why it is refused, in the one form that C takes.
#[derive(Clone, Copy, Debug, Default, PartialEq, Eq)]
pub struct Record {
    pub number: u8,
    pub end: u8,
    pub kind: u32,
    pub body: usize,
    pub body_len: usize,
    pub next: usize,
}

/// The records before `at`, which is the log's end or the place of the record at fault.
#[derive(Clone, Copy, Debug, Default, PartialEq, Eq)]
pub struct Walk {
    pub number: u8,
    pub at: usize,
    pub sizes: usize,
    pub frames: usize,
    pub replies: usize,
    pub notes: usize,
    pub unknown: usize,
}

/// Writes a record to the head of `out`.
pub fn put(kind: u32, body: &[u8], out: &mut [u8]) -> Written {
    match plan(kind, body, out.len()) {
        Ok((kind, length)) => {
            fill(kind, body, &mut out[..length]);
            Written {
                number: numbers::DONE,
                length,
            }
        }
        Err(number) => Written { number, length: 0 },
    }
}

fn plan(kind: u32, body: &[u8], room: usize) -> Result<(Kind, usize), u8> {
    let kind = Kind::of(kind).ok_or(numbers::LOG_LIMITS)?;
    require(kind.permits(body), numbers::LOG_LIMITS)?;
    let length = HEAD + body.len();
    require(room >= length, numbers::OUTPUT_SHORT)?;
    Ok((kind, length))
}

fn fill(kind: Kind, body: &[u8], record: &mut [u8]) {
    let counted = (KIND + body.len()) as u16;
    record[..LENGTH].copy_from_slice(&counted.to_le_bytes());
    record[LENGTH..HEAD].copy_from_slice(&kind.number().to_le_bytes());
    record[HEAD..].copy_from_slice(body);
}

/// What stands at `place`, which may be any number.
pub fn record_at(log: &[u8], place: usize) -> Result<Found, u8> {
    let rest = log.get(place..).ok_or(numbers::LOG_BROKEN)?;
    if rest.is_empty() {
        return Ok(Found::End);
    }
    let (number, body) = first(rest).ok_or(numbers::LOG_BROKEN)?;
    let start = place + HEAD;
    let next = start + body.len();
    match Kind::of(u32::from(number)) {
        Some(kind) => {
            require(kind.permits(body), numbers::LOG_LIMITS)?;
            Ok(Found::Record {
                kind,
                body: start..next,
            })
        }
        None => Ok(Found::Unknown { kind: number, next }),
    }
}

/// The kind and the body of the record that `bytes` begins with, if all of it is there.
fn first(bytes: &[u8]) -> Option<(u16, &[u8])> {
    let (length, rest) = bytes.split_first_chunk::<LENGTH>()?;
    let counted = rest.get(..usize::from(u16::from_le_bytes(*length)))?;
    let (kind, body) = counted.split_first_chunk::<KIND>()?;
    Some((u16::from_le_bytes(*kind), body))
}

/// Reads record after record from place 0, until the end or a refusal.
pub fn walk(log: &[u8]) -> Walk {
    let mut walk = Walk::default();
    loop {
        match record_at(log, walk.at) {
            Ok(Found::Record { kind, body }) => {
                *walk.count_of(kind) += 1;
                walk.at = body.end;
            }
            Ok(Found::Unknown { next, .. }) => {
                walk.unknown += 1;
                walk.at = next;
            }
            Ok(Found::End) => return walk,
            Err(number) => return Walk { number, ..walk },
        }
    }
}

impl Walk {
    fn count_of(&mut self, kind: Kind) -> &mut usize {
        match kind {
            Kind::Size => &mut self.sizes,
            Kind::Frame => &mut self.frames,
            Kind::Reply => &mut self.replies,
            Kind::Note => &mut self.notes,
        }
    }
}

impl Kind {
    pub fn of(number: u32) -> Option<Kind> {
        match number {
            1 => Some(Kind::Size),
            2 => Some(Kind::Frame),
            3 => Some(Kind::Reply),
            4 => Some(Kind::Note),
            _ => None,
        }
    }

    pub fn number(self) -> u16 {
        match self {
            Kind::Size => 1,
            Kind::Frame => 2,
            Kind::Reply => 3,
            Kind::Note => 4,
        }
    }

    fn permits(self, body: &[u8]) -> bool {
        match self {
            Kind::Size => matches!(body, [1..=16]),
            Kind::Frame | Kind::Reply => body.len() <= LONGEST_FRAME,
            Kind::Note => body.len() <= LONGEST_NOTE,
        }
    }
}

impl From<Result<Found, u8>> for Record {
    fn from(answer: Result<Found, u8>) -> Record {
        match answer {
            Ok(Found::Record { kind, body }) => Record {
                kind: u32::from(kind.number()),
                body: body.start,
                body_len: body.len(),
                next: body.end,
                ..Record::default()
            },
            Ok(Found::Unknown { kind, next }) => Record {
                kind: u32::from(kind),
                next,
                ..Record::default()
            },
            Ok(Found::End) => Record {
                end: 1,
                ..Record::default()
            },
            Err(number) => Record {
                number,
                ..Record::default()
            },
        }
    }
}
