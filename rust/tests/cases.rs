//! Every reel image of crates/cases lists as crates/cases/stdout says, through the safe calls alone.

use segd::reel::{line, records, Ending};
use std::{fs, path::Path};

/// What the lister prints for an image, under its name.
fn listing(name: &str, image: &[u8]) -> String {
    let (records, ending) = records(image);
    let ending = match ending {
        Ending::Whole => "reel ok",
        Ending::Cut => "reel cut",
        Ending::OtherVersion => "reel version",
    };
    let lines =
        records.iter().zip(1..).map(|(record, n)| format!("{n} {}\n", line(&record.read())));
    format!("{name}:\n{}{ending}\n", lines.collect::<String>())
}

#[test]
fn images_list_as_they_must() {
    let cases = Path::new(env!("CARGO_MANIFEST_DIR")).join("../crates/cases");
    let names = fs::read_to_string(cases.join("args")).expect("the names of the images");
    let image = |name: &str| fs::read(cases.join("data").join(name)).expect("an image");
    let listed: String = names.lines().map(|name| listing(name, &image(name))).collect();
    let expected = fs::read_to_string(cases.join("stdout")).expect("what is expected");
    for (ours, theirs) in listed.lines().zip(expected.lines()) {
        assert_eq!(ours, theirs);
    }
    assert_eq!(listed.len(), expected.len());
}
