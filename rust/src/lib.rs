//! Safe calls on the proved reader of SEG-D revision 0 records.
//!
//! The reader is the library that `tools/build library` makes. Each call here is one of its calls;
//! its answer comes as a `Result`, and what it turns away as a [`Refusal`].
//!
//! ```
//! # fn main() -> Result<(), segd::Refusal> {
//! // Format 0022, two scans of one channel set of four channels.
//! let mut block = [0; 64];
//! block[1..4].copy_from_slice(&[0x07, 0x00, 0x22]);
//! block[10..16].copy_from_slice(&[0x80, 0x00, 0x45, 0x09, 0x30, 0x00]);
//! block[18..23].copy_from_slice(&[0x01, 0x00, 0x00, 0x12, 32]);
//! block[25..29].copy_from_slice(&[0x80, 0x05, 0x01, 0x01]);
//! block[32..43].copy_from_slice(&[1, 1, 0, 0, 0, 2, 0, 0, 0x00, 0x04, 0x10]);
//! let bytes = b"\xFF\xFF\xFF\x01\0\0\0\0\x18\x97\xFF\0\xFF\xFF\xFF\x01\0\x02\0\0\x18\x97\0\0";
//!
//! let header = segd::read_header(&block)?;
//! assert_eq!((header.file, header.code, header.samples_per_scan), (7, 0x0022, 4));
//!
//! let mut samples = [segd::Sample::default(); 24];
//! let mut body = segd::open(&block)?;
//! let given = body.portion(bytes, &mut samples)?;
//! assert_eq!((given.samples, given.stop), (8, None));
//! assert_eq!(samples[1], segd::Sample { m: -8, x: -2 });
//! body.block_end()?;
//! let report = body.close()?;
//! assert_eq!((report.scans, report.samples, report.off), (2, 8, 1));
//! # Ok(())
//! # }
//! ```

#![deny(unsafe_code)]
#![warn(missing_docs)]

mod body;
#[allow(unsafe_code)]
mod ffi;
mod header;
mod parts;
mod places;
pub mod reel;
mod refusal;
mod words;

pub use body::{open, Body, Given, Opened, Report, Traces};
pub use header::{descriptor, packed, read_header, ChannelSet, Header};
pub use parts::{constants, extended, external, sample_time, skew, skew_at};
pub use places::{sample_index, sample_place, trace_place, Place, TracePlace};
pub use refusal::Refusal;
pub use words::{format, read_word, Format, Kind, Sample, Word};
