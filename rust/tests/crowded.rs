//! The example `crowded`, run as a program with the sample dumps and with arguments that are none.
//!
//! Programs: the library alone, by the example. The archive is made by `tools/build`.

use std::fs;
use std::path::{Path, PathBuf};
use std::process::Command;

/// A sample dump.
fn sample(name: &str) -> PathBuf {
    let crate_folder = Path::new(env!("CARGO_MANIFEST_DIR"));
    crate_folder.join("../samples").join(name)
}

/// A file that the example may make, which is not there yet.
fn fresh(name: &str) -> PathBuf {
    let path = Path::new(env!("CARGO_TARGET_TMPDIR")).join(name);
    let _ = fs::remove_file(&path);
    path
}

/// What the example prints for these arguments, and whether it is done.
fn run(files: &[&Path]) -> (bool, String) {
    let manifest = Path::new(env!("CARGO_MANIFEST_DIR")).join("Cargo.toml");
    let output = Command::new(env!("CARGO"))
        .args(["run", "--quiet", "--offline", "--example", "crowded"])
        .arg("--manifest-path")
        .arg(manifest)
        .arg("--")
        .args(files)
        .output()
        .expect("the example runs");
    let text = String::from_utf8(output.stdout).expect("ASCII");
    (output.status.success(), text)
}

#[test]
fn a_crowded_dump_is_gathered_into_a_new_one() {
    let to = fresh("gathered.dump");
    let words = String::from("pages in use 14, gathered 10\n");
    assert_eq!(run(&[&sample("crowded.dump"), &to]), (true, words));
    let expected = fs::read(sample("crowded-gathered.dump")).expect("a sample");
    assert_eq!(fs::read(&to).expect("the new dump"), expected);
}

#[test]
fn a_file_that_is_there_is_not_written_over() {
    let to = fresh("there.dump");
    fs::write(&to, b"kept").expect("a file");
    let (is_done, words) = run(&[&sample("crowded.dump"), &to]);
    assert!(!is_done && words.contains("there.dump"), "{words}");
    assert_eq!(fs::read(&to).expect("the file"), b"kept");
}

#[test]
fn a_dump_that_is_refused_gives_no_new_one() {
    let to = fresh("refused.dump");
    let words = String::from("refused 2 page 3\n");
    assert_eq!(run(&[&sample("bad-page.dump"), &to]), (false, words));
    let words = String::from("refused 19 page 0\n");
    assert_eq!(run(&[&sample("short-header.dump"), &to]), (false, words));
    assert!(!to.exists());
}

#[test]
fn without_two_names_nothing_is_done() {
    let usage = "two arguments: the dump, the name of the gathered one\n";
    assert_eq!(run(&[]), (false, String::from(usage)));
    let (is_done, words) = run(&[&sample("none.dump"), &fresh("none.dump")]);
    assert!(!is_done && words.contains("none.dump"), "{words}");
}
