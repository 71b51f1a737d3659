//! Compares the compiled lister with the reader.

use conformance::compare::{listings, program};

fn main() {
    program::run("listings", listings::compare);
}
