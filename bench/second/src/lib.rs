//! The second implementation behind the C prototypes of rig.h, under the names `second_*`, so that one program times all.
//!
//! Each function asks of its caller what rig.h asks: true lengths, buffers apart, aligned records.

use core::slice::{from_raw_parts, from_raw_parts_mut};
use second::{cells, chain, conversions, pec, reader, tally, wirelog, writer};

#[repr(C)]
pub struct Written {
    number: u8,
    length: usize,
}

#[repr(C)]
pub struct Heard {
    number: u8,
    word: u16,
}

#[repr(C)]
pub struct Readings {
    number: u8,
    counts: [u16; 18],
    valid: u32,
    unmeasured: u32,
}

#[repr(C)]
pub struct Tally {
    replies: u32,
    read: u32,
    wrong: u32,
    silent: u32,
}

#[repr(C)]
pub struct Code {
    number: u8,
    code: u16,
}

#[repr(C)]
pub struct Conversion {
    number: u8,
    command: u32,
    mode: u32,
    discharge: u32,
    pull_up: u32,
    choice: u32,
}

#[repr(C)]
pub struct Record {
    number: u8,
    end: u8,
    kind: u32,
    body: usize,
    body_len: usize,
    next: usize,
}

#[repr(C)]
pub struct Walk {
    number: u8,
    at: usize,
    sizes: usize,
    frames: usize,
    replies: usize,
    notes: usize,
    unknown: usize,
}

/// A lent buffer as a slice. At length 0 its pointer may be NULL, which no slice has.
unsafe fn lent<'a>(start: *const u8, length: usize) -> &'a [u8] {
    if length == 0 {
        return &[];
    }
    from_raw_parts(start, length)
}

unsafe fn lent_mut<'a>(start: *mut u8, length: usize) -> &'a mut [u8] {
    if length == 0 {
        return &mut [];
    }
    from_raw_parts_mut(start, length)
}

fn written(by_second: writer::Written) -> Written {
    Written {
        number: by_second.number,
        length: by_second.length,
    }
}

#[no_mangle]
pub unsafe extern "C" fn second_pec(bytes: *const u8, bytes_len: usize) -> u16 {
    pec::pec(lent(bytes, bytes_len))
}

#[no_mangle]
pub unsafe extern "C" fn second_write(
    n: u32,
    code: u32,
    data: *const u8,
    data_len: usize,
    out: *mut u8,
    out_len: usize,
) -> Written {
    written(writer::write(
        n,
        code,
        lent(data, data_len),
        lent_mut(out, out_len),
    ))
}

#[no_mangle]
pub unsafe extern "C" fn second_chain(
    n: u32,
    frame: *const u8,
    frame_len: usize,
    state: *mut u8,
    state_len: usize,
    reply: *mut u8,
    reply_len: usize,
) -> Heard {
    let heard = chain::serve(
        n,
        lent(frame, frame_len),
        lent_mut(state, state_len),
        lent_mut(reply, reply_len),
    );
    Heard {
        number: heard.number,
        word: heard.word,
    }
}

#[no_mangle]
pub unsafe extern "C" fn second_read(
    n: u32,
    code: u32,
    reply: *const u8,
    reply_len: usize,
    data: *mut u8,
    data_len: usize,
    marks: *mut u8,
    marks_len: usize,
) -> u8 {
    reader::read(
        n,
        code,
        lent(reply, reply_len),
        lent_mut(data, data_len),
        lent_mut(marks, marks_len),
    )
}

#[no_mangle]
pub unsafe extern "C" fn second_cells(
    groups: *const u8,
    groups_len: usize,
    marks: *const u8,
    marks_len: usize,
) -> Readings {
    let readings = cells::cells(lent(groups, groups_len), lent(marks, marks_len));
    Readings {
        number: readings.number,
        counts: readings.counts,
        valid: readings.valid,
        unmeasured: readings.unmeasured,
    }
}

#[no_mangle]
pub unsafe extern "C" fn second_tally_add(
    record: *mut Tally,
    marks: *const u8,
    marks_len: usize,
) -> u8 {
    let record = &mut *record;
    let mut sum = tally::Tally {
        replies: record.replies,
        read: record.read,
        wrong: record.wrong,
        silent: record.silent,
    };
    let number = tally::add(&mut sum, lent(marks, marks_len));
    record.replies = sum.replies;
    record.read = sum.read;
    record.wrong = sum.wrong;
    record.silent = sum.silent;
    number
}

#[no_mangle]
pub extern "C" fn second_conversion_code(
    command: u32,
    mode: u32,
    discharge: u32,
    pull_up: u32,
    choice: u32,
) -> Code {
    let built = conversions::conversion_code(command, mode, discharge, pull_up, choice);
    Code {
        number: built.number,
        code: built.code,
    }
}

#[no_mangle]
pub extern "C" fn second_conversion_of(code: u32) -> Conversion {
    let taken = conversions::conversion_of(code);
    Conversion {
        number: taken.number,
        command: taken.command,
        mode: taken.mode,
        discharge: taken.discharge,
        pull_up: taken.pull_up,
        choice: taken.choice,
    }
}

#[no_mangle]
pub unsafe extern "C" fn second_log_put(
    kind: u32,
    body: *const u8,
    body_len: usize,
    out: *mut u8,
    out_len: usize,
) -> Written {
    written(wirelog::put(
        kind,
        lent(body, body_len),
        lent_mut(out, out_len),
    ))
}

#[no_mangle]
pub unsafe extern "C" fn second_log_at(log: *const u8, log_len: usize, place: usize) -> Record {
    let found = wirelog::record_at(lent(log, log_len), place);
    let record = wirelog::Record::from(found);
    Record {
        number: record.number,
        end: record.end,
        kind: record.kind,
        body: record.body,
        body_len: record.body_len,
        next: record.next,
    }
}

#[no_mangle]
pub unsafe extern "C" fn second_log_walk(log: *const u8, log_len: usize) -> Walk {
    let walk = wirelog::walk(lent(log, log_len));
    Walk {
        number: walk.number,
        at: walk.at,
        sizes: walk.sizes,
        frames: walk.frames,
        replies: walk.replies,
        notes: walk.notes,
        unknown: walk.unknown,
    }
}
