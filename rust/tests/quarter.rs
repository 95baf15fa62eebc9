//! The example `quarter`, run as a program with the sample dumps and with arguments that are none. The totals are known by hand.
//!
//! Programs: the library alone, by the example. The archive is made by `tools/build`.

use std::path::{Path, PathBuf};
use std::process::Command;

/// The folder of the samples.
fn samples() -> PathBuf {
    Path::new(env!("CARGO_MANIFEST_DIR")).join("../samples")
}

/// What the example prints for these arguments in the folder of the samples: its status, standard output and standard error.
fn run(arguments: &[&str]) -> (Option<i32>, String, String) {
    let manifest = Path::new(env!("CARGO_MANIFEST_DIR")).join("Cargo.toml");
    let output = Command::new(env!("CARGO"))
        .args(["run", "--quiet", "--offline", "--example", "quarter"])
        .arg("--manifest-path")
        .arg(manifest)
        .arg("--")
        .args(arguments)
        .current_dir(samples())
        .output()
        .expect("the example runs");
    let text = |bytes| String::from_utf8(bytes).expect("ASCII");
    (
        output.status.code(),
        text(output.stdout),
        text(output.stderr),
    )
}

/// Demands status, standard output and standard error.
fn demand(arguments: &[&str], status: i32, totals: &str, said: &str) {
    let told = run(arguments);
    let expected = (Some(status), String::from(totals), String::from(said));
    assert_eq!(told, expected, "{arguments:?}");
}

/// Three count files of the extension 7; the file of the extension 12 is none.
#[test]
fn count_files_of_a_dump_are_totalled() {
    let totals = "dumps 1 count files 3\n\
                  cycles 1026\n\
                  greatest doubled peak 900\n\
                  near misses 5 limit 900 margin 50\n";
    demand(&["900", "50", "7", "counts.dump"], 0, totals, "");
    demand(&["900", "50", "8,7", "counts.dump"], 0, totals, "");
}

/// A dump that is given twice is counted twice.
#[test]
fn count_files_of_several_dumps_are_totalled() {
    let totals = "dumps 3 count files 6\n\
                  cycles 2052\n\
                  greatest doubled peak 900\n\
                  near misses 2 limit 901 margin 1\n";
    let dumps = ["counts.dump", "one-file.dump", "counts.dump"];
    demand(&[&["901", "1", "7"][..], &dumps].concat(), 0, totals, "");
}

#[test]
fn without_count_files_there_is_no_greatest() {
    let totals = "dumps 1 count files 0\n\
                  cycles 0\n\
                  no greatest doubled peak\n\
                  near misses 0 limit -900 margin 65535\n";
    demand(&["-900", "65535", "9", "counts.dump"], 0, totals, "");
}

/// A count file that was cut is named, and what remains is incomplete.
#[test]
fn refused_file_is_named_and_the_totals_are_incomplete() {
    let totals = "incomplete: left out 1\n\
                  dumps 2 count files 4\n\
                  cycles 1033\n\
                  greatest doubled peak 900\n\
                  near misses 5 limit 900 margin 50\n";
    let said = "counts-cut.dump: file LOAD.007 refused 24\n";
    let dumps = ["counts.dump", "counts-cut.dump"];
    demand(
        &[&["900", "50", "7,8"][..], &dumps].concat(),
        1,
        totals,
        said,
    );
}

/// A file is named with its directories; a text is no count file.
#[test]
fn refused_file_is_named_by_its_path() {
    let totals = "incomplete: left out 2\n\
                  dumps 1 count files 0\n\
                  cycles 0\n\
                  no greatest doubled peak\n\
                  near misses 0 limit 900 margin 50\n";
    let said = "hidden-directory.dump: file MAKR/LOGS/CNT.007 refused 24\n\
                hidden-directory.dump: file CREW/CNT.007 refused 24\n";
    demand(
        &["900", "50", "7", "hidden-directory.dump"],
        1,
        totals,
        said,
    );
}

/// Dumps that are refused, malformed or not there are named; no file of them is counted.
#[test]
fn refused_dumps_are_named_and_the_totals_are_incomplete() {
    let dumps = [
        "bad-page.dump",
        "counts.dump",
        "short-header.dump",
        "offset-in-header.dump",
        "none.dump",
        "in-progress.dump",
    ];
    let (status, totals, said) = run(&[&["900", "50", "7"][..], &dumps].concat());
    let known = "incomplete: left out 5\n\
                 dumps 1 count files 3\n\
                 cycles 1026\n\
                 greatest doubled peak 900\n\
                 near misses 5 limit 900 margin 50\n";
    assert_eq!((status, totals.as_str()), (Some(1), known));
    let lines: Vec<&str> = said.lines().collect();
    assert_eq!(lines.len(), 5, "{said}");
    assert_eq!(lines[0], "bad-page.dump: refused 2 page 3");
    assert_eq!(lines[1], "short-header.dump: refused 19 page 0");
    assert_eq!(lines[2], "offset-in-header.dump: refused 19 page 0");
    assert!(lines[3].starts_with("none.dump: "), "{said}");
    assert_eq!(lines[4], "in-progress.dump: refused 5 page 0");
}

/// The weighted sums of the sample, as `docs/OFFICE.md` works them out by hand.
#[test]
fn weighted_reports_name_their_version() {
    let totals = "dumps 1 count files 3\n\
                  cycles 1026\n\
                  greatest doubled peak 900\n\
                  near misses 5 limit 900 margin 50\n";
    let version_1 = format!("{totals}weight 9185578000 version 1\n");
    demand(&["900", "50", "v1", "7", "counts.dump"], 0, &version_1, "");
    let version_2 =
        format!("{totals}weight 426702020000000 version 2 knee 300 times knee squared\n");
    demand(
        &["900", "50", "v2:300", "7", "counts.dump"],
        0,
        &version_2,
        "",
    );
}

/// A knee out of its limits: no file is added, each is named.
#[test]
fn file_that_cannot_be_weighed_is_named() {
    for knee in ["0", "1001", "65543", "4000000000"] {
        let weight = format!("v2:{knee}");
        let totals = format!(
            "incomplete: left out 2\n\
             dumps 1 count files 0\n\
             cycles 0\n\
             no greatest doubled peak\n\
             near misses 0 limit 900 margin 50\n\
             weight 0 version 2 knee {knee} times knee squared\n"
        );
        let said = "counts-cut.dump: file LOAD.007 refused 24\n\
                    counts-cut.dump: file PINS.008 refused 25\n";
        let arguments = ["900", "50", &weight, "7,8", "counts-cut.dump"];
        demand(&arguments, 1, &totals, said);
    }
}

/// Numbers that do not fit and arguments that are missing.
#[test]
fn other_arguments_are_none() {
    let usage = "arguments: limit, margin, v1 or v2:K if the report has a weight, \
                 extension numbers with commas between them, dumps\n";
    for arguments in [
        &[][..],
        &["900", "50", "7"],
        &["2147483648", "50", "7", "counts.dump"],
        &["900", "65536", "7", "counts.dump"],
        &["900", "-1", "7", "counts.dump"],
        &["900", "50", "100", "counts.dump"],
        &["900", "50", "7,", "counts.dump"],
        &["900", "50", "counts.dump", "counts.dump"],
        &["900", "50", "v1", "7"],
        &["900", "50", "v3", "7", "counts.dump"],
        &["900", "50", "v2", "7", "counts.dump"],
        &["900", "50", "v2:4294967296", "7", "counts.dump"],
        &["900", "50", "v1", "v1", "7", "counts.dump"],
    ] {
        demand(arguments, 2, "", usage);
    }
}
