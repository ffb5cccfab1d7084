//! Every session of the test data must be answered exactly.

mod common;

use reference::frames::run_frames;
use std::fs;
use std::path::Path;

const NAMES: [&str; 8] = [
    "bad-lines",
    "document",
    "equal-entries",
    "full-day",
    "one-link",
    "refusals",
    "three-links",
    "two-links",
];

#[test]
fn sessions_are_answered_exactly() {
    let folder = Path::new(env!("CARGO_MANIFEST_DIR")).join("tests/sessions");
    for name in NAMES {
        let frames = fs::read(folder.join(format!("{name}.frames"))).unwrap();
        let answers = fs::read(folder.join(format!("{name}.answers"))).unwrap();
        assert!(!answers.is_empty());
        let mut written = Vec::new();
        let mut machine = common::machine(3);
        run_frames(&mut machine, frames.as_slice(), &mut written, false).unwrap();
        assert!(written == answers, "{name}");
    }
}

/// A session added to the folder must be added to the list as well.
#[test]
fn no_session_is_left_out() {
    let folder = Path::new(env!("CARGO_MANIFEST_DIR")).join("tests/sessions");
    let mut found: Vec<String> = fs::read_dir(folder)
        .unwrap()
        .map(|file| file.unwrap().file_name().into_string().unwrap())
        .filter_map(|file| file.strip_suffix(".frames").map(str::to_string))
        .collect();
    found.sort();
    assert_eq!(found, NAMES);
}
