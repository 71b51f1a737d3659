//! Which sample of a scan or of a trace is which.

use crate::{ffi, Refusal};

/// Whose sample it is.
#[derive(Clone, Copy, Debug, PartialEq, Eq)]
pub struct Place {
    /// From 1.
    pub set: u32,
    /// From 1.
    pub channel: u32,
    /// From 0.
    pub subscan: u32,
}

/// The number in its scan, from 0, of a sample by its place.
///
/// Refuses as [`crate::read_header`] does, and [`Refusal::Index`] where there is no such sample.
pub fn sample_index(block: &[u8], scan_type: u32, place: Place) -> Result<u32, Refusal> {
    let Place { set, channel, subscan } = place;
    let index = ffi::sample_index(block, scan_type, set, channel, subscan);
    index.refusal.or(index.k)
}

/// The place of sample `k` of a scan.
///
/// Refuses as [`crate::read_header`] does, and [`Refusal::Index`] where there is no such sample.
pub fn sample_place(block: &[u8], scan_type: u32, k: u32) -> Result<Place, Refusal> {
    let ffi::Sits { refusal, set, channel, subscan } = ffi::sample_place(block, scan_type, k);
    refusal.or(Place { set, channel, subscan })
}

/// Whose sample of a trace it is.
#[derive(Clone, Copy, Debug, PartialEq, Eq)]
pub struct TracePlace {
    /// From 1.
    pub scan_type: u32,
    /// From 1.
    pub set: u32,
    /// From 1.
    pub channel: u32,
    /// The scan of its scan type, from 0.
    pub scan: u32,
    /// From 0.
    pub subscan: u32,
}

/// The place of a sample of a trace of a demultiplexed record, both counted from 0. How many samples a trace has is not asked.
///
/// Refuses as [`crate::read_header`] does, and [`Refusal::Index`] where the record is multiplexed or has no such trace.
pub fn trace_place(block: &[u8], trace: u32, sample: u32) -> Result<TracePlace, Refusal> {
    let ffi::TraceSits { refusal, scan_type, set, channel, scan, subscan } =
        ffi::trace_place(block, trace, sample);
    refusal.or(TracePlace { scan_type, set, channel, scan, subscan })
}
