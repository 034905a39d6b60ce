//! The C entries, each called beside the second implementation on the same memory. What is lent to C stands between guards;
//! results, exit contents and guards are compared, and the C answer is handed on.

use second::cells::{self, Readings};
use second::chain::{self, Heard};
use second::conversions::{self, Code, Conversion};
use second::tally::{self, Tally};
use second::wake::{self, Wait};
use second::wirelog::{self, Record, Walk};
use second::writer::{self, Written};
use second::{pec as plain, reader};
use std::cell::Cell;

/// The records as rig.h has them.
mod c {
    #[repr(C)]
    pub struct Written {
        pub number: u8,
        pub length: usize,
    }
    #[repr(C)]
    pub struct Heard {
        pub number: u8,
        pub word: u16,
    }
    #[repr(C)]
    pub struct Wait {
        pub number: u8,
        pub wait: u32,
    }
    #[repr(C)]
    pub struct Readings {
        pub number: u8,
        pub counts: [u16; 18],
        pub valid: u32,
        pub unmeasured: u32,
    }
    #[repr(C)]
    pub struct Tally {
        pub replies: u32,
        pub read: u32,
        pub wrong: u32,
        pub silent: u32,
    }
    #[repr(C)]
    pub struct Code {
        pub number: u8,
        pub code: u16,
    }
    #[repr(C)]
    pub struct Conversion {
        pub number: u8,
        pub command: u32,
        pub mode: u32,
        pub discharge: u32,
        pub pull_up: u32,
        pub choice: u32,
    }
    #[repr(C)]
    pub struct Record {
        pub number: u8,
        pub end: u8,
        pub kind: u32,
        pub body: usize,
        pub body_len: usize,
        pub next: usize,
    }
    #[repr(C)]
    pub struct Walk {
        pub number: u8,
        pub at: usize,
        pub sizes: usize,
        pub frames: usize,
        pub replies: usize,
        pub notes: usize,
        pub unknown: usize,
    }
}

#[rustfmt::skip]
extern "C" {
    fn rig_pec(bytes: *const u8, bytes_len: usize) -> u16;
    fn rig_write(n: u32, code: u32, data: *const u8, data_len: usize, out: *mut u8, out_len: usize) -> c::Written;
    fn rig_chain(n: u32, frame: *const u8, frame_len: usize, state: *mut u8, state_len: usize, reply: *mut u8, reply_len: usize) -> c::Heard;
    fn rig_read(n: u32, code: u32, reply: *const u8, reply_len: usize, data: *mut u8, data_len: usize, marks: *mut u8, marks_len: usize) -> u8;
    fn rig_cells(groups: *const u8, groups_len: usize, marks: *const u8, marks_len: usize) -> c::Readings;
    fn rig_tally_add(tally: *mut c::Tally, marks: *const u8, marks_len: usize) -> u8;
    fn rig_wake(n: u32, last: u32, now: u32) -> c::Wait;
    fn rig_conversion_code(command: u32, mode: u32, discharge: u32, pull_up: u32, choice: u32) -> c::Code;
    fn rig_conversion_of(code: u32) -> c::Conversion;
    fn rig_log_put(kind: u32, body: *const u8, body_len: usize, out: *mut u8, out_len: usize) -> c::Written;
    fn rig_log_at(log: *const u8, log_len: usize, place: usize) -> c::Record;
    fn rig_log_walk(log: *const u8, log_len: usize) -> c::Walk;
}

thread_local! {
    static CALLS: Cell<u64> = const { Cell::new(0) };
}

fn count() {
    CALLS.set(CALLS.get() + 1);
}

/// Says how often a test called a C entry; each test has a thread of its own.
pub fn ran(test: &str) {
    println!("   {test}: {} calls", CALLS.get());
}

const GUARD: usize = 24;

fn guard_at(place: usize) -> u8 {
    (place * 61 + 17) as u8
}

/// Memory to lend: bytes between two guards.
struct Lent {
    all: Vec<u8>,
    length: usize,
}

impl Lent {
    fn new(bytes: &[u8]) -> Lent {
        let mut all: Vec<u8> = (0..bytes.len() + 2 * GUARD).map(guard_at).collect();
        all[GUARD..GUARD + bytes.len()].copy_from_slice(bytes);
        let length = bytes.len();
        Lent { all, length }
    }

    fn start(&mut self) -> *mut u8 {
        self.all[GUARD..].as_mut_ptr()
    }

    /// Holds what is there now to what has to be, and the guards to what they were.
    fn hold(&self, then: &[u8], what: &str) {
        let (before, rest) = self.all.split_at(GUARD);
        let (bytes, after) = rest.split_at(self.length);
        assert_eq!(bytes, then, "{what} at exit");
        let kept =
            |part: &[u8], from: usize| (from..).zip(part).all(|(at, byte)| *byte == guard_at(at));
        assert!(kept(before, 0), "a byte before {what} was written");
        assert!(
            kept(after, GUARD + self.length),
            "a byte past {what} was written"
        );
    }
}

pub fn pec(bytes: &[u8]) -> u16 {
    count();
    let mut lent = Lent::new(bytes);
    let got = unsafe { rig_pec(lent.start(), bytes.len()) };
    assert_eq!(got, plain::pec(bytes), "check word of {bytes:02X?}");
    lent.hold(bytes, "bytes");
    got
}

pub fn write(n: u32, code: u32, data: &[u8], out: &mut [u8]) -> Written {
    count();
    let (mut from, mut to) = (Lent::new(data), Lent::new(out));
    let c = unsafe { rig_write(n, code, from.start(), data.len(), to.start(), out.len()) };
    let got = Written {
        number: c.number,
        length: c.length,
    };
    let want = writer::write(n, code, data, out);
    assert_eq!(
        got,
        want,
        "write {n} {code:#x}, data {}, out {}",
        data.len(),
        out.len()
    );
    from.hold(data, "data");
    to.hold(out, "out");
    got
}

pub fn chain(n: u32, frame: &[u8], state: &mut [u8], reply: &mut [u8]) -> Heard {
    count();
    let (mut from, mut held, mut to) = (Lent::new(frame), Lent::new(state), Lent::new(reply));
    let c = unsafe {
        rig_chain(
            n,
            from.start(),
            frame.len(),
            held.start(),
            state.len(),
            to.start(),
            reply.len(),
        )
    };
    let got = Heard {
        number: c.number,
        word: c.word,
    };
    let want = chain::serve(n, frame, state, reply);
    assert_eq!(
        got,
        want,
        "chain {n}, state {}, reply {}, frame {frame:02X?}",
        state.len(),
        reply.len()
    );
    from.hold(frame, "frame");
    held.hold(state, "state");
    to.hold(reply, "reply");
    got
}

pub fn read(n: u32, code: u32, reply: &[u8], bytes: &mut [u8], marks: &mut [u8]) -> u8 {
    count();
    let (mut from, mut to, mut sorts) = (Lent::new(reply), Lent::new(bytes), Lent::new(marks));
    let got = unsafe {
        rig_read(
            n,
            code,
            from.start(),
            reply.len(),
            to.start(),
            bytes.len(),
            sorts.start(),
            marks.len(),
        )
    };
    let want = reader::read(n, code, reply, bytes, marks);
    assert_eq!(
        got,
        want,
        "read {n} {code:#x}, data {}, marks {}, reply {reply:02X?}",
        bytes.len(),
        marks.len()
    );
    from.hold(reply, "reply");
    to.hold(bytes, "data");
    sorts.hold(marks, "marks");
    got
}

pub fn cells(groups: &[u8], marks: &[u8]) -> Readings {
    count();
    let (mut from, mut sorts) = (Lent::new(groups), Lent::new(marks));
    let c = unsafe { rig_cells(from.start(), groups.len(), sorts.start(), marks.len()) };
    let got = Readings {
        number: c.number,
        counts: c.counts,
        valid: c.valid,
        unmeasured: c.unmeasured,
    };
    assert_eq!(
        got,
        cells::cells(groups, marks),
        "cells of {groups:02X?}, {marks:?}"
    );
    from.hold(groups, "groups");
    sorts.hold(marks, "marks");
    got
}

pub fn tally_add(tally: &mut Tally, marks: &[u8]) -> u8 {
    count();
    let guard = || c::Tally {
        replies: 5,
        read: 6,
        wrong: 7,
        silent: 8,
    };
    let lent = c::Tally {
        replies: tally.replies,
        read: tally.read,
        wrong: tally.wrong,
        silent: tally.silent,
    };
    let mut three = [guard(), lent, guard()];
    let mut sorts = Lent::new(marks);
    let got = unsafe { rig_tally_add(&mut three[1], sorts.start(), marks.len()) };
    let was = *tally;
    assert_eq!(
        got,
        tally::add(tally, marks),
        "tally {was:?}, marks {marks:?}"
    );
    let seen = three.map(|c| [c.replies, c.read, c.wrong, c.silent]);
    let then = [tally.replies, tally.read, tally.wrong, tally.silent];
    assert_eq!(
        seen,
        [[5, 6, 7, 8], then, [5, 6, 7, 8]],
        "tally {was:?} at exit, marks {marks:?}"
    );
    sorts.hold(marks, "marks");
    got
}

pub fn wake(n: u32, last: u32, now: u32) -> Wait {
    count();
    let c = unsafe { rig_wake(n, last, now) };
    let got = Wait {
        number: c.number,
        wait: c.wait,
    };
    assert_eq!(got, wake::wake(n, last, now), "wake {n}, {last}, {now}");
    got
}

pub fn conversion_code(command: u32, mode: u32, discharge: u32, pull_up: u32, choice: u32) -> Code {
    count();
    let c = unsafe { rig_conversion_code(command, mode, discharge, pull_up, choice) };
    let got = Code {
        number: c.number,
        code: c.code,
    };
    assert_eq!(
        got,
        conversions::conversion_code(command, mode, discharge, pull_up, choice),
        "conversion code of {command}, {mode}, {discharge}, {pull_up}, {choice}"
    );
    got
}

pub fn conversion_of(code: u32) -> Conversion {
    count();
    let c = unsafe { rig_conversion_of(code) };
    let got = Conversion {
        number: c.number,
        command: c.command,
        mode: c.mode,
        discharge: c.discharge,
        pull_up: c.pull_up,
        choice: c.choice,
    };
    assert_eq!(
        got,
        conversions::conversion_of(code),
        "conversion of {code:#x}"
    );
    got
}

pub fn log_put(kind: u32, body: &[u8], out: &mut [u8]) -> Written {
    count();
    let (mut from, mut to) = (Lent::new(body), Lent::new(out));
    let c = unsafe { rig_log_put(kind, from.start(), body.len(), to.start(), out.len()) };
    let got = Written {
        number: c.number,
        length: c.length,
    };
    let want = wirelog::put(kind, body, out);
    assert_eq!(got, want, "put {kind}, out {}, body {body:02X?}", out.len());
    from.hold(body, "body");
    to.hold(out, "out");
    got
}

/// A log that stays lent, so that many of its places can be asked for.
pub struct Log<'a> {
    bytes: &'a [u8],
    lent: Lent,
}

impl Log<'_> {
    pub fn new(bytes: &[u8]) -> Log<'_> {
        let lent = Lent::new(bytes);
        Log { bytes, lent }
    }

    pub fn at(&mut self, place: usize) -> Record {
        count();
        let c = unsafe { rig_log_at(self.lent.start(), self.bytes.len(), place) };
        let got = Record {
            number: c.number,
            end: c.end,
            kind: c.kind,
            body: c.body,
            body_len: c.body_len,
            next: c.next,
        };
        let want = Record::from(wirelog::record_at(self.bytes, place));
        assert_eq!(got, want, "place {place} of {:02X?}", self.bytes);
        got
    }

    pub fn walk(&mut self) -> Walk {
        count();
        let c = unsafe { rig_log_walk(self.lent.start(), self.bytes.len()) };
        let got = Walk {
            number: c.number,
            at: c.at,
            sizes: c.sizes,
            frames: c.frames,
            replies: c.replies,
            notes: c.notes,
            unknown: c.unknown,
        };
        let want = wirelog::walk(self.bytes);
        assert_eq!(got, want, "walk over {:02X?}", self.bytes);
        got
    }
}

impl Drop for Log<'_> {
    fn drop(&mut self) {
        if !std::thread::panicking() {
            self.lent.hold(self.bytes, "log");
        }
    }
}

/// Length 0 at NULL is taken by every entry that takes a length.
#[test]
fn nothing_at_null() {
    use std::ptr::{null, null_mut};
    let mut tally = c::Tally {
        replies: 0,
        read: 0,
        wrong: 0,
        silent: 0,
    };
    unsafe {
        assert_eq!(rig_pec(null(), 0), 0x0020);
        assert_eq!(rig_write(1, 1, null(), 0, null_mut(), 0).number, 3);
        assert_eq!(rig_write(1, 2, null(), 0, null_mut(), 0).number, 5);
        assert_eq!(
            rig_chain(1, null(), 0, null_mut(), 0, null_mut(), 0).number,
            3
        );
        assert_eq!(
            rig_chain(1, null(), 0, [0; 109].as_mut_ptr(), 109, null_mut(), 0).number,
            6
        );
        assert_eq!(rig_read(1, 2, null(), 0, null_mut(), 0, null_mut(), 0), 3);
        assert_eq!(
            rig_read(1, 2, [0; 12].as_ptr(), 12, null_mut(), 0, null_mut(), 0),
            5
        );
        assert_eq!(rig_cells(null(), 0, null(), 0).number, 3);
        assert_eq!(rig_tally_add(&mut tally, null(), 0), 1);
        assert_eq!(rig_log_put(2, null(), 0, null_mut(), 0).number, 5);
        assert_eq!(rig_log_put(1, null(), 0, null_mut(), 0).number, 11);
        assert_eq!(rig_log_put(4, null(), 0, [0; 4].as_mut_ptr(), 4).length, 4);
        assert_eq!(rig_log_at(null(), 0, 0).end, 1);
        assert_eq!(rig_log_at(null(), 0, usize::MAX).number, 10);
        assert_eq!(rig_log_walk(null(), 0).number, 0);
    }
}
