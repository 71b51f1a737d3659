//! The compiled lister, a program that lists one image.

use std::io::{Error, Read, Result};
use std::os::fd::{FromRawFd, OwnedFd};
use std::os::unix::net::UnixDatagram;
use std::path::PathBuf;
use std::process::{Command, Stdio};

/// The lister of target/bin, or of the folder that `SEGD_OWN` names.
fn program() -> PathBuf {
    std::env::var_os("SEGD_OWN")
        .map_or_else(
            || PathBuf::from(concat!(env!("CARGO_MANIFEST_DIR"), "/../target/bin")),
            PathBuf::from,
        )
        .join("reel")
}

extern "C" {
    fn socketpair(domain: i32, kind: i32, protocol: i32, ends: *mut i32) -> i32;
}

/// What Linux calls `AF_UNIX`.
const LOCAL: i32 = 1;

/// What Linux calls `SOCK_SEQPACKET | SOCK_CLOEXEC`.
const IN_PORTIONS: i32 = 5 | 0x8_0000;

/// The two ends of a connection on which one read gets one portion: a pipe would
/// join those that come quickly.
fn connection() -> Result<(UnixDatagram, OwnedFd)> {
    let mut ends = [0; 2];
    // SAFETY: the call writes two numbers, and each is a descriptor that is ours alone.
    unsafe {
        if socketpair(LOCAL, IN_PORTIONS, 0, ends.as_mut_ptr()) != 0 {
            return Err(Error::last_os_error());
        }
        let [ours, its] = ends.map(|end| OwnedFd::from_raw_fd(end));
        Ok((UnixDatagram::from(ours), its))
    }
}

/// What the lister prints for an image that comes in these portions, none of them
/// empty, and how it ended where that was not well.
pub fn listing(portions: &[&[u8]]) -> String {
    let (input, its) = connection().expect("a pair of sockets");
    let mut lister = Command::new(program())
        .stdin(its)
        .stdout(Stdio::piped())
        .spawn()
        .expect("the lister is built");
    send(input, portions);
    let mut text = Vec::new();
    let printed = lister.stdout.take().expect("its output is a pipe").read_to_end(&mut text);
    printed.expect("its output can be read");
    let status = lister.wait().expect("it was started");
    let ended = if status.success() { String::new() } else { format!("ended with {status}") };
    String::from_utf8_lossy(&text).into_owned() + &ended
}

/// Sends the portions until the lister has read enough, and ends the input.
fn send(input: UnixDatagram, portions: &[&[u8]]) {
    for portion in portions {
        if input.send(portion).is_err() {
            return;
        }
    }
}
