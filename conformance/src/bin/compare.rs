//! Compares the compiled library with the reader.

use conformance::compare::{library, program};

fn main() {
    program::run("compare", library);
}
