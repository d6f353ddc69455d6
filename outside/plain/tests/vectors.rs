//! Run files made elsewhere (those of the program `listings`), with the listing expected of each.

use plain::demand::{self, Handed};
use plain::{raisers, PER_ENTRY, PER_OPERATION};
use std::path::{Path, PathBuf};

fn folder() -> PathBuf {
    Path::new(env!("CARGO_MANIFEST_DIR")).join("../../crates/listings")
}

/// Names and files, letters first, as the program prints them.
fn stored() -> Vec<(String, Vec<u8>)> {
    let data = folder().join("data");
    let mut names: Vec<String> = std::fs::read_dir(&data)
        .expect("the stored files")
        .map(|entry| entry.expect("a file").file_name().into_string().expect("a name of letters and digits"))
        .collect();
    assert!(names.len() > 300, "the stored vectors are not there");
    names.sort_by_key(|name| (name.starts_with(|c: char| c.is_ascii_digit()), name.clone()));
    let file = |name: &String| std::fs::read(data.join(name)).expect("the run file of each name");
    names.iter().map(|name| (name.clone(), file(name))).collect()
}

#[test]
fn listings() {
    let expected = std::fs::read_to_string(folder().join("stdout")).expect("the stored listings");
    let mut listings = String::new();
    for (name, file) in stored() {
        listings += &format!("{name}\n{}", plain::listing(&file));
    }
    // by name first: the whole text is long
    for (ours, theirs) in listings.lines().zip(expected.lines()) {
        assert_eq!(ours, theirs);
    }
    assert_eq!(listings, expected);
}

/// What is played of the accepted ones meets demand 3, and the raisers are those that the schedule names.
#[test]
fn demand_and_raisers() {
    for (name, file) in stored() {
        let Ok(contents) = plain::read(&file) else { continue };
        let (mut results, mut log) = (vec![0; PER_OPERATION * contents.operations], vec![0; PER_ENTRY * contents.operations]);
        let totals = plain::run(&file, &mut results, &mut log).expect("an accepted file and enough room");
        let handed = Handed { results: &results, log: &log[..PER_ENTRY * totals.entries], idle: totals.idle };
        assert_eq!(demand::check(&file, &contents, handed), Ok(()), "{name}");
        assert_eq!(raisers::check(&file, &contents, &results), Ok(()), "{name}");
    }
}
