//! The example `bad_page`, run as a program with the sample dumps and with arguments that are none. Its answers for all kinds of pages are compared with
//! known ones in `tests/tests/bad_page.rs`.
//!
//! Programs: the library alone, by the example. The archive is made by `tools/build`.

use std::path::{Path, PathBuf};
use std::process::Command;

/// A sample dump.
fn sample(name: &str) -> PathBuf {
    let crate_folder = Path::new(env!("CARGO_MANIFEST_DIR"));
    crate_folder.join("../samples").join(name)
}

/// What the example prints for these files, and whether it has an answer.
fn run(files: &[PathBuf]) -> (bool, String) {
    let manifest = Path::new(env!("CARGO_MANIFEST_DIR")).join("Cargo.toml");
    let output = Command::new(env!("CARGO"))
        .args(["run", "--quiet", "--offline", "--example", "bad_page"])
        .arg("--manifest-path")
        .arg(manifest)
        .arg("--")
        .args(files)
        .output()
        .expect("the example runs");
    let text = String::from_utf8(output.stdout).expect("ASCII");
    (output.status.success(), text)
}

#[test]
fn a_bad_page_is_told_with_its_file_and_what_lies_after_it() {
    let files = ["bad-page-before.dump", "bad-page.dump"].map(sample);
    let words = "refused 2 page 3\n\
                 page 3 has place 1 of 4 in file LOG.007\n\
                 after it pages 2 bytes 36\n\
                 no other page differs\n";
    assert_eq!(run(&files), (true, String::from(words)));
}

#[test]
fn without_two_dumps_there_is_no_answer() {
    let usage = "two arguments: the last accepted dump, the dump with the bad page\n";
    assert_eq!(run(&[]), (false, String::from(usage)));
    let (is_answered, words) = run(&["none.dump", "bad-page.dump"].map(sample));
    assert!(!is_answered && words.contains("none.dump"), "{words}");
}
