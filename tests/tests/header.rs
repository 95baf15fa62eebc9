//! The C header, the Rust crate's declarations and the exported functions and structs of the Rattle sources: one to one, field by field, parameter
//! by parameter, with equal types.
//!
//! Programs: none is called. The texts `include/owfs.h`, `rust/src/raw.rs`, `crates/owfs/src/lib.rt` and `crates/answers/src/lib.rt` are read.

use std::fs;
use std::path::Path;

use common::declarations::{differences, of_header, of_rattle, of_rust, Declarations};

/// A file of the repository.
fn file(name: &str) -> String {
    let path = Path::new(env!("CARGO_MANIFEST_DIR")).join("..").join(name);
    fs::read_to_string(path).unwrap_or_else(|error| panic!("{name}: {error}"))
}

/// The header's text.
fn header() -> String {
    file("include/owfs.h")
}

/// The Rust crate's declarations.
fn rust() -> Declarations {
    of_rust(&file("rust/src/raw.rs"))
}

/// What the Rattle sources export.
fn rattle() -> Declarations {
    let functions = file("crates/owfs/src/lib.rt");
    of_rattle(&file("crates/answers/src/lib.rt"), &functions)
}

#[test]
fn the_header_declares_sixteen_functions_and_eight_structs() {
    let declared = of_header(&header());
    let names: Vec<&str> = declared.keys().map(String::as_str).collect();
    let expected = [
        "owfs_careful_delete",
        "owfs_careful_put",
        "owfs_check",
        "owfs_crc16",
        "owfs_delete",
        "owfs_format",
        "owfs_gather",
        "owfs_list",
        "owfs_make_directory",
        "owfs_mend",
        "owfs_put",
        "owfs_read",
        "owfs_remove_directory",
        "owfs_report_add",
        "owfs_report_start",
        "owfs_report_start_weighted",
        "struct owfs_added",
        "struct owfs_answer",
        "struct owfs_entry",
        "struct owfs_length",
        "struct owfs_mended",
        "struct owfs_report",
        "struct owfs_totals",
        "struct owfs_writes",
    ];
    assert_eq!(names, expected);
    let counts: Vec<usize> = declared.values().map(|one| one.items.len()).collect();
    let functions = [9, 11, 6, 3, 8, 7, 8, 7, 8, 6, 10, 10, 8, 3, 2, 4];
    let structs = [3, 2, 9, 3, 3, 10, 5, 4];
    assert_eq!(counts, [&functions[..], &structs].concat());
}

/// Each call has its stack in its comment; all but the check sum and those of reports have twice what their owner table needs; careful delete names
/// careful put instead.
#[test]
fn the_header_tells_stack_and_owner_table_of_each_call() {
    let text = header();
    let stack = "Stack: less than 16 KiB, for every page count,";
    assert_eq!(text.matches(stack).count(), 12);
    let stack_of_reports = "Stack: under 512 bytes";
    assert_eq!(text.matches(stack_of_reports).count(), 3);
    assert_eq!(text.matches("Stack: ").count(), 16);
    assert_eq!(text.matches("4 * page_count").count(), 2 * 11);
    assert_eq!(text.matches("2 * page_count").count(), 0);
}

/// Put, delete and their careful forms have 22 in their tables of refusals, after 15 and before 16; besides, making and removing a directory have it.
#[test]
fn the_header_tells_22_of_the_four_edits() {
    let text = header();
    let hidden = " *     22  a directory on the path is hidden                        0\n";
    let read_only = " *     16  file is read-only                                        0\n";
    let absent = ["directory absent        ", "directory or file absent"];
    let lines = absent.map(|words| {
        let line = format!(" *     15  {words}                                 0\n");
        let both = [&line, hidden, read_only].concat();
        text.matches(&both).count()
    });
    assert_eq!(lines, [2, 2]);
    assert_eq!(text.matches(" 22  ").count(), 6);
    for call in ["put", "delete", "careful_put", "careful_delete"] {
        let end = text.find(&format!(" owfs_{call}(")).expect("the call");
        let comment = text[..end].rfind("/* ").expect("its comment");
        assert!(text[comment..end].contains(hidden), "{call}");
    }
}

/// Making a directory has 14, 15, 22, 21, 17 in its table of refusals, removing one has 14, 15, 22, 20, in this order; no other call has 20 or 21.
#[test]
fn the_header_tells_the_refusals_of_directories_in_order() {
    let text = header();
    let numbers = |call: &str| -> Vec<&str> {
        let end = text.find(&format!(" owfs_{call}(")).expect("the call");
        let comment = &text[text[..end].rfind("/* ").expect("its comment")..end];
        let table = comment.split("number  meaning").nth(1).expect("a table");
        let table = table.split(" *\n").next().expect("its lines");
        let lines = table.lines().skip(1).map(|line| &line[2..9]);
        lines.map(str::trim).collect()
    };
    let make = ["0", "1-13", "14", "15", "22", "21", "17"];
    assert_eq!(numbers("make_directory"), make);
    let remove = ["0", "1-13", "14", "15", "22", "20"];
    assert_eq!(numbers("remove_directory"), remove);
    for (row, times) in [(" *     20  ", 1), (" *     21  ", 1)] {
        assert_eq!(text.matches(row).count(), times);
    }
}

/// Adding a file to a report has 24 and after it 25 in its table; no other call has them.
#[test]
fn the_header_tells_24_and_25_of_reports() {
    let text = header();
    let lines = " *     24  count file malformed, or the report has 4,096 files      0\n\
                 \x20*     25  only for a report with a weight: a range above 1,000,    0\n";
    for number in [" 24  ", " 25  "] {
        assert_eq!(text.matches(number).count(), 1);
    }
    let end = text.find(" owfs_report_add(").expect("the call");
    let comment = text[..end].rfind("/* ").expect("its comment");
    assert!(text[comment..end].contains(lines));
}

#[test]
fn the_rust_declarations_are_the_headers() {
    let found = differences(&of_header(&header()), &rust());
    assert!(found.is_empty(), "rust/src/raw.rs: {found:#?}");
}

#[test]
fn the_rattle_exports_are_the_headers() {
    let found = differences(&of_header(&header()), &rattle());
    assert!(found.is_empty(), "crates/owfs, crates/answers: {found:#?}");
}

/// Changes of the header, each with the start of a line that must tell it.
const CHANGES: [(&str, &str, &str); 22] = [
    (
        "uint32_t used;",
        "uint16_t used;",
        "struct owfs_totals, item 2",
    ),
    (
        "uint32_t used;",
        "uint32_t taken;",
        "struct owfs_totals, item 2",
    ),
    ("uint32_t level;", "", "struct owfs_entry: 9 items"),
    (
        "struct owfs_length {",
        "struct owfs_size {",
        "struct owfs_size: only",
    ),
    (
        "uint16_t owfs_crc16(",
        "uint32_t owfs_crc16(",
        "owfs_crc16: result",
    ),
    ("uint16_t start, ", "", "owfs_crc16: 3 items"),
    (
        "uint8_t *out, ",
        "const uint8_t *out, ",
        "owfs_read, item 6",
    ),
    (
        "size_t out_length",
        "uint32_t out_length",
        "owfs_read, item 7",
    ),
    ("uint32_t position", "uint32_t place", "owfs_list, item 6"),
    ("uint32_t made;", "", "struct owfs_writes: 4 items"),
    (
        "uint32_t cleared;",
        "uint32_t marks;",
        "struct owfs_mended, item 2",
    ),
    (
        "uint8_t *copy, ",
        "const uint8_t *copy, ",
        "owfs_gather, item 4",
    ),
    (
        "size_t copy_length",
        "uint32_t copy_length",
        "owfs_gather, item 5",
    ),
    (
        "uint32_t allowed);",
        "size_t allowed);",
        "owfs_careful_put, item 10",
    ),
    (
        "owfs_remove_directory(",
        "owfs_delete_directory(",
        "owfs_remove_directory: the header does not",
    ),
    (
        "owfs_delete(",
        "owfs_remove(",
        "owfs_delete: the header does not",
    ),
    (
        "int32_t greatest;",
        "uint32_t greatest;",
        "struct owfs_report, item 4",
    ),
    (
        "uint64_t near;",
        "uint32_t near;",
        "struct owfs_report, item 1",
    ),
    (
        "uint16_t margin)",
        "uint32_t margin)",
        "owfs_report_start, item 1",
    ),
    (
        "uint32_t knee)",
        "uint16_t knee)",
        "owfs_report_start_weighted, item 3",
    ),
    (
        "uint64_t weight;",
        "uint32_t weight;",
        "struct owfs_report, item 2",
    ),
    (
        "struct owfs_report report,",
        "const struct owfs_report *report,",
        "owfs_report_add, item 0",
    ),
];

#[test]
fn a_change_of_the_header_is_told() {
    for (text, other, told) in CHANGES {
        let changed = header().replace(text, other);
        assert_ne!(changed, header(), "{text}");
        for other in [rust(), rattle()] {
            let found = differences(&of_header(&changed), &other);
            let is_told = found.iter().any(|line| line.starts_with(told));
            assert!(is_told, "{text} for {other:?}: {found:#?}");
        }
    }
}
