//! A second relay, written from docs/RULES.md and docs/FAULTS.md alone.
//!
//! A book is read (`book`) and assembled (`organ`); a line is read into
//! messages (`line`), a message becomes a console call (`action`), and a relay
//! answers it: `naive` works everything out anew, `counting` keeps counts.

pub mod action;
pub mod book;
pub mod case;
pub mod counting;
pub mod external;
pub mod generate;
pub mod line;
pub mod listing;
pub mod naive;
pub mod organ;
pub mod rng;

/// Rows of a chest: divisions at its top, ranks at its foot.
pub const ROWS: usize = 16;
/// The most places that a row has.
pub const PLACES: usize = 128;
pub const KNOBS: usize = 64;
pub const PISTONS: usize = 40;
/// The knob number of a wire that is always live.
pub const ALWAYS: u8 = 64;
