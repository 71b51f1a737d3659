//! A second opinion on SEG-D revision 0 records.
//!
//! `reader` answers every question from the written description, plainly and
//! without any state. `make` builds inputs to ask about. `tally` counts what a
//! run of questions covered. `ours` puts the same questions to the compiled
//! library, and `compare` sets the two answers side by side.

pub mod compare;
pub mod make;
pub mod ours;
pub mod reader;
pub mod tally;
