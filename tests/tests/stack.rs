//! Every call on a stack of 16 KiB, for the largest images: 50,000 entries in one directory, directories nested to level eight, one file on all
//! pages; some entries have stamps. Reports with the longest count file.
//!
//! Programs: the library, by the C program `tests/c/calls.c`, which makes each call on a small stack above memory that may not be touched, and the second
//! program, whose answers and lent bytes the C program must print. Small images and faults of every kind are in `c_calls.rs`, on the same stack.
//! The archive is made by `tools/build`.

use std::path::{Path, PathBuf};
use std::sync::OnceLock;

use common::c_calls::{request, Call};
use common::c_programs::{printed, stack_used, Caller, SMALL_STACK};
use common::generators::{deep_shape, largest_image};
use common::plans::geometry;
use common::reports::{count_file_with, forged_weighted_report};
use common::{table_bytes, Button};
use referee::builder::plan::{Built, BuiltEntry};
use referee::builder::random::{random_plan, Shape};
use referee::rng::Rng;
use referee::{report_start, report_start_weighted};

/// N of all images here.
const PAGES: u32 = 65_535;

/// The program that makes the calls, compiled once.
fn caller() -> &'static Caller {
    static CALLER: OnceLock<Caller> = OnceLock::new();
    CALLER.get_or_init(|| Caller::new(Path::new(env!("CARGO_TARGET_TMPDIR")), "stack"))
}

/// The bytes of an owner table with so many more than needed.
fn owner_bytes(more: usize) -> usize {
    table_bytes(PAGES) + more
}

/// Makes calls after each other on the small stack: each prints what the second program answers and leaves. Tells the stack that was used.
fn on_small_stack(button: &Button, image: &Path, calls: &[Call], what: &str) -> usize {
    let mut button = button.clone();
    let input: Vec<u8> = calls.iter().flat_map(Call::bytes).collect();
    let expected = calls.iter().map(|call| call.expected(&mut button));
    let expected: String = expected.collect();
    let output = caller().run(image, &input, what);
    printed(&output, &expected);
    let used = stack_used(&output);
    println!("{what}: {used} bytes of stack");
    assert!(used < SMALL_STACK, "{what}");
    used
}

/// The limit is a limit: what is lent can be used, and no byte more.
#[test]
fn the_stack_is_limited() {
    let image = caller().write_image("none.image", &Button::zeros(0, 0));
    let blocks = SMALL_STACK as u32 / 1_024;
    let less = caller().run(&image, &request(b's', &[1_024 * (blocks - 2)]), "less");
    printed(&less, &format!("s {}\n", blocks - 2));
    assert!(stack_used(&less) > SMALL_STACK - 2 * 1_024);
    let more = caller().run(&image, &request(b's', &[1_024 * blocks]), "more");
    assert!(more.status.code().is_none(), "{}", more.status);
    let much_more = caller().run(&image, &request(b's', &[900 * 1_024]), "much-more");
    assert!(much_more.status.code().is_none(), "{}", much_more.status);
}

/// The bytes of stack that the header promises for a call of reports.
const REPORT_STACK: usize = 512;

/// Reports are started, with a weight and without, and the longest count file is added to them: whole, cut by a byte, and to reports that other hands
/// have changed. Its ranges are weighed in both versions.
#[test]
fn reports_with_the_longest_file_run_on_a_small_stack() {
    let rng = &mut Rng::new(0x57AC_0001);
    let rows: Vec<(i16, u16, u32)> = (0..65_535)
        .map(|_| {
            (
                rng.next_u64() as i16,
                rng.below(1_001) as u16,
                rng.below(3) as u32,
            )
        })
        .collect();
    let whole = count_file_with(&[0x5A; 65_531], &rows);
    let mut calls = Vec::new();
    for (limit, margin, version, knee) in [
        (100_000, 65_535, 1, 0),
        (i32::MIN, 0, 2, 100),
        (i32::MAX, 1, 2, 1_000),
        (0, 9, 3, 5),
    ] {
        calls.push(Call::ReportStart { limit, margin });
        calls.push(Call::ReportStartWeighted {
            limit,
            margin,
            version,
            knee,
        });
        let weighted = report_start_weighted(limit, margin, version, knee);
        let plain = report_start(limit, margin);
        for length in [whole.len(), whole.len() - 1, 0] {
            for report in [plain, weighted, forged_weighted_report(rng)] {
                let file = whole[..length].to_vec();
                calls.push(Call::ReportAdd { report, file });
            }
        }
    }
    let none = Button::zeros(0, 0);
    let image = caller().write_image("reports.image", &none);
    let used = on_small_stack(&none, &image, &calls, "reports");
    assert!(used < REPORT_STACK, "{used} bytes of stack");
}

/// 50,000 entries in the root, and the file of the image for the C program.
fn largest() -> &'static (Built, PathBuf) {
    static LARGEST: OnceLock<(Built, PathBuf)> = OnceLock::new();
    LARGEST.get_or_init(|| {
        let built = largest_image(256, 50_000, 1, 0, 71);
        assert_eq!(built.totals.files, 50_000);
        let file = caller().write_image("largest.image", &Button::from(&built));
        (built, file)
    })
}

/// Makes calls with the largest directory.
fn in_largest(calls: &[Call], what: &str) {
    let (built, image) = largest();
    on_small_stack(&Button::from(built), image, calls, what);
}

/// The path of the last file of an image that is not read-only; if any such file has stamps, of the last that has.
fn last_path(built: &Built) -> Vec<u8> {
    let is_such = |entry: &&BuiltEntry| entry.listing.attribute == 0 && !entry.bytes.is_empty();
    let files = built.entries.iter().filter(is_such);
    let last = files.max_by_key(|file| file.stamps > 0);
    last.expect("a file that is not read-only").path.clone()
}

#[test]
fn check_of_50000_entries_runs_on_a_small_stack() {
    let owner_bytes = owner_bytes(2);
    in_largest(&[Call::Check { owner_bytes }], "check");
}

#[test]
fn list_of_50000_entries_runs_on_a_small_stack() {
    let call = Call::List {
        owner_bytes: owner_bytes(0),
        position: 49_999,
    };
    in_largest(&[call], "list");
}

#[test]
fn read_of_50000_entries_runs_on_a_small_stack() {
    let last = &largest().0.entries[49_999];
    let call = Call::Read {
        owner_bytes: owner_bytes(0),
        path: last.path.clone(),
        out_bytes: last.bytes.len() + 3,
    };
    in_largest(&[call], "read");
}

#[test]
fn delete_from_50000_entries_runs_on_a_small_stack() {
    let call = Call::Delete {
        owner_bytes: owner_bytes(1),
        path: last_path(&largest().0),
    };
    in_largest(&[call], "delete");
}

/// A new file on three pages.
#[test]
fn put_to_50000_entries_runs_on_a_small_stack() {
    let call = Call::Put {
        owner_bytes: owner_bytes(0),
        path: b"NEW'\x63".to_vec(),
        bytes: vec![0xA5; 2 * 251 + 1],
    };
    in_largest(&[call], "put");
}

/// The last file replaced by one on all pages that are free.
#[test]
fn replacement_in_50000_entries_runs_on_a_small_stack() {
    let free = (PAGES - largest().0.totals.used) as usize;
    let call = Call::Put {
        owner_bytes: owner_bytes(2),
        path: last_path(&largest().0),
        bytes: vec![0x5A; 251 * (free + 1)],
    };
    in_largest(&[call], "replace");
}

#[test]
fn careful_delete_from_50000_entries_runs_on_a_small_stack() {
    let call = Call::CarefulDelete {
        owner_bytes: owner_bytes(1),
        path: last_path(&largest().0),
        allowed: 3,
    };
    in_largest(&[call], "careful-delete");
}

/// A careful put of a new file on three pages, and of the last file replaced by one on all pages that are free.
#[test]
fn careful_put_to_50000_entries_runs_on_a_small_stack() {
    let free = (PAGES - largest().0.totals.used) as usize;
    for (path, length, what) in [
        (b"NEW'\x63".to_vec(), 2 * 251 + 1, "careful-put"),
        (last_path(&largest().0), 251 * free, "careful-replace"),
    ] {
        let call = Call::CarefulPut {
            owner_bytes: owner_bytes(0),
            path,
            bytes: vec![0xA5; length],
            allowed: u32::MAX,
        };
        in_largest(&[call], what);
    }
}

/// A directory made, one made in it and removed, then the first removed.
#[test]
fn make_and_remove_directory_beside_50000_entries_run_on_a_small_stack() {
    let owner_bytes = owner_bytes(0);
    let (outer, inner) = (b"NEW'".to_vec(), b"NEW'IN  ".to_vec());
    let make = |path: &[u8]| Call::MakeDirectory {
        owner_bytes,
        path: path.to_vec(),
    };
    let remove = |path: &[u8]| Call::RemoveDirectory {
        owner_bytes,
        path: path.to_vec(),
    };
    let calls = [
        make(&outer),
        make(&inner),
        remove(&outer),
        remove(&inner),
        remove(&outer),
    ];
    in_largest(&calls, "directories");
}

/// A mend of what a stopped delete leaves.
#[test]
fn mend_of_50000_entries_runs_on_a_small_stack() {
    let owner_bytes = owner_bytes(0);
    let stopped = Call::CarefulDelete {
        owner_bytes,
        path: last_path(&largest().0),
        allowed: 1,
    };
    in_largest(&[stopped, Call::Mend { owner_bytes }], "mend");
}

#[test]
fn gather_of_50000_entries_runs_on_a_small_stack() {
    let call = Call::Gather {
        owner_bytes: owner_bytes(1),
        copy_bytes: largest().0.image.len(),
    };
    in_largest(&[call], "gather");
}

/// Format is refused over the largest directory, whose records it tells, and done with a bitmap file.
#[test]
fn format_over_50000_entries_runs_on_a_small_stack() {
    for (local, what) in [(1, "local"), (0, "file")] {
        let owner_bytes = owner_bytes(0);
        in_largest(&[Call::Format { owner_bytes, local }], what);
    }
}

/// Every call with an image, one after the other: those that only read, a gather, a put and a careful put beside a file, its deletion in two steps with
/// a mend, its replacement and deletion, a directory made and removed beside it or, at level eight, beside its directory, a format that is refused and
/// one that is done.
fn every_call(built: &Built, file: &[u8]) -> Vec<Call> {
    let owner_bytes = owner_bytes(0);
    let last = built.entries.len() as u32 - 1;
    let (path, new) = (
        file.to_vec(),
        [&file[..file.len() - 5], b"NEW'\x63"].concat(),
    );
    let names = file[..file.len() - 5].len().min(28);
    let directory = [&file[..names], b"NEW'"].concat();
    let bytes = vec![0x7E; 4_000];
    let allowed = u32::MAX;
    vec![
        Call::Check { owner_bytes },
        Call::List {
            owner_bytes,
            position: last,
        },
        Call::Read {
            owner_bytes,
            path: path.clone(),
            out_bytes: built.image.len(),
        },
        Call::Gather {
            owner_bytes,
            copy_bytes: built.image.len(),
        },
        Call::CarefulDelete {
            owner_bytes,
            path: path.clone(),
            allowed: 1,
        },
        Call::Mend { owner_bytes },
        Call::Put {
            owner_bytes,
            path: new.clone(),
            bytes: bytes.clone(),
        },
        Call::CarefulPut {
            owner_bytes,
            path: path.clone(),
            bytes: bytes.clone(),
            allowed,
        },
        Call::Put {
            owner_bytes,
            path: path.clone(),
            bytes: Vec::new(),
        },
        Call::Delete { owner_bytes, path },
        Call::CarefulDelete {
            owner_bytes,
            path: new,
            allowed,
        },
        Call::MakeDirectory {
            owner_bytes,
            path: directory.clone(),
        },
        Call::RemoveDirectory {
            owner_bytes,
            path: directory,
        },
        Call::Format {
            owner_bytes,
            local: 1,
        },
        Call::Format {
            owner_bytes,
            local: 0,
        },
    ]
}

/// A tree with stamps that goes down to level eight, in 65,535 pages, with no hidden directory; the calls go to a file there that has stamps.
#[test]
fn every_call_in_directories_down_to_level_eight_runs_on_a_small_stack() {
    let rng = &mut Rng::new(0x57AC_0000);
    let shape = Shape {
        stamp_percent: 70,
        hidden_percent: 0,
        ..deep_shape(&geometry(32, PAGES), rng)
    };
    let built = random_plan(32, PAGES, shape, rng).build();
    let is_deep = |entry: &&BuiltEntry| {
        let is_file = entry.listing.attribute == 0 && entry.listing.extension != 127;
        entry.listing.level == 8 && is_file && entry.stamps > 0
    };
    let file = built
        .entries
        .iter()
        .find(is_deep)
        .expect("a file at level eight");
    let button = Button::from(&built);
    let image = caller().write_image("deep.image", &button);
    on_small_stack(&button, &image, &every_call(&built, &file.path), "deep");
}

/// Few files of up to 6,000 pages each, on nearly all of 65,535 pages in any order; the calls go to one of them.
#[test]
fn every_call_with_long_files_runs_on_a_small_stack() {
    let built = largest_image(32, 40, 6_000, 0, 73);
    assert!(built.totals.used > 60_000);
    let button = Button::from(&built);
    let image = caller().write_image("long.image", &button);
    let calls = every_call(&built, &last_path(&built));
    on_small_stack(&button, &image, &calls, "long");
}
