//! Prints what this implementation gives for a fixed list of cases, held against the stated values.

#[path = "vectors/cells.rs"]
mod cells;
#[path = "vectors/chain.rs"]
mod chain;
#[path = "vectors/check.rs"]
mod check;
#[path = "vectors/commands.rs"]
mod commands;
#[path = "vectors/conversions.rs"]
mod conversions;
#[path = "vectors/page.rs"]
mod page;
#[path = "vectors/pieces.rs"]
mod pieces;
#[path = "vectors/reader.rs"]
mod reader;
#[path = "vectors/tally.rs"]
mod tally;
#[path = "vectors/wake.rs"]
mod wake;
#[path = "vectors/wirelog.rs"]
mod wirelog;
#[path = "vectors/writer.rs"]
mod writer;

use page::Page;
use std::io::Write;
use std::process::ExitCode;

/// The words of a heading and what writes the lines below it.
type Section = (&'static str, fn(&mut Page));

const SECTIONS: [Section; 11] = [
    ("check words", check::words),
    ("table entries", check::entries),
    ("commands", commands::section),
    ("conversions", conversions::section),
    ("writer", writer::section),
    ("chain", chain::section),
    ("wake", wake::section),
    ("cells", cells::section),
    ("tally", tally::section),
    ("reader", reader::section),
    ("wire log", wirelog::section),
];

fn main() -> ExitCode {
    let mut page = Page::default();
    for (words, section) in SECTIONS {
        page.heading(words);
        section(&mut page);
    }
    for message in page.differences() {
        eprintln!("vectors: {message}");
    }
    let printed = std::io::stdout().write_all(page.text().as_bytes());
    if printed.is_ok() && page.differences().is_empty() {
        ExitCode::SUCCESS
    } else {
        ExitCode::FAILURE
    }
}
