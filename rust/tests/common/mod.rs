//! Header blocks for the tests.

use segd::{Body, Traces};

/// The body of the description's case L.
#[allow(dead_code)]
pub const L_BODY: [u8; 24] =
    *b"\xFF\xFF\xFF\x01\0\0\0\0\x18\x97\xFF\0\xFF\xFF\xFF\x01\0\x02\0\0\x18\x97\0\0";

/// A number's decimal digits, the last four or fewer, as packed pairs.
fn packed<const N: usize>(number: u32) -> [u8; N] {
    let pair = |k: usize| number / 100u32.pow((N - 1 - k) as u32) % 100;
    std::array::from_fn(|k| (pair(k) / 10 * 16 + pair(k) % 10) as u8)
}

/// A general header: code, bytes per scan, base scan interval, scan types, channel sets, skew fields. All else is case L's.
pub fn general(code: u16, b: u32, interval: u8, types: u32, sets: u32, skew: u32) -> Vec<u8> {
    let [code_1, code_2] = code.to_be_bytes();
    let [b_1, b_2, b_3] = packed(b);
    let [types, sets, skew] = [types, sets, skew].map(|n| packed::<1>(n)[0]);
    vec![
        0x00, 0x07, code_1, code_2, 0, 0, 0, 0, 0, 0, 0x80, 0x00, 0x45, 0x09, 0x30, 0x00, 0x00,
        0x00, 0x01, b_1, b_2, b_3, interval, 0, 0, 0x80, 0x05, types, sets, skew, 0, 0,
    ]
}

/// The descriptor of a channel set, each channel sampled 2^sc times in a scan.
pub fn set(scan_type: u32, set: u32, channels: u32, sc: u8) -> [u8; 32] {
    let mut bytes = [0; 32];
    bytes[..2].copy_from_slice(&[packed::<1>(scan_type)[0], packed::<1>(set)[0]]);
    bytes[5] = 2;
    bytes[8..10].copy_from_slice(&packed::<2>(channels));
    bytes[10..12].copy_from_slice(&[0x10, sc << 4]);
    bytes
}

/// The header block of case L: 0022, one set of four channels at 2 ms.
pub fn case_l() -> Vec<u8> {
    let mut block = general(0x0022, 12, 32, 1, 1, 0);
    block.extend(set(1, 1, 4, 0));
    block
}

/// The body that an accepted header of a multiplexed record opens.
#[allow(dead_code)] // not every test has scans
pub fn scans(block: &[u8]) -> Body {
    segd::open(block).expect("an accepted header").scans().expect("a body of scans")
}

/// The body that an accepted header of a demultiplexed record opens.
#[allow(dead_code)] // not every test has traces
pub fn traces(block: &[u8]) -> Traces<'_> {
    segd::open(block).expect("an accepted header").traces().expect("a body of traces")
}
