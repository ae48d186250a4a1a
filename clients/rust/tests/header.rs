//! The codes are those of the header, by the same names and numbers.

use famsync::Code;
use std::collections::BTreeMap;
use std::fs;
use std::path::Path;

/// The header, from the crate: in the repository, and where both were installed.
const PLACES: [&str; 2] = ["../c/famsync.h", "../../../include/famsync.h"];

/// The codes below 0 of the header: `FAMSYNC_NAME = -NUMBER`, with whatever follows.
fn codes_of_header() -> BTreeMap<i32, String> {
    let read = |place| fs::read_to_string(Path::new(env!("CARGO_MANIFEST_DIR")).join(place)).ok();
    let header = PLACES.iter().find_map(read).expect("famsync.h is in one of its places");
    let named = header.lines().filter_map(|line| line.trim().strip_prefix("FAMSYNC_")?.split_once(" = -"));
    let number = |rest: &str| rest.split(|c: char| !c.is_ascii_digit()).next().and_then(|digits| digits.parse().ok());
    named.filter_map(|(name, rest)| number(rest).map(|number: i32| (-number, name.to_string()))).collect()
}

#[test]
fn codes_are_those_of_the_header() {
    let header = codes_of_header();
    assert!(header.len() > 20, "{header:?}");
    for number in -200..0 {
        let code = Code::from(number);
        assert_eq!(code.number(), number);
        match header.get(&number) {
            Some(name) => assert_eq!(&format!("{code:?}").to_uppercase(), name),
            None => assert_eq!(code, Code::Other(number)),
        }
    }
}
