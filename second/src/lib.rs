//! Second, independent implementation of the battery-monitor chain rig, to hold the first one against.

pub mod cells;
pub mod chain;
pub mod commands;
pub mod conversions;
pub mod groups;
pub mod numbers;
pub mod pec;
pub mod reader;
pub mod tally;
pub mod wake;
pub mod wirelog;
pub mod writer;
