//! The examples that answer whose a bad page is and what lies after it, in C and in Rust: both print the same text, which is known by construction.
//!
//! Programs: the library, by `tests/c/bad_page.c`, compiled here with warnings as errors and run, and by `rust/examples/bad_page.rs`, whose function is
//! called. Images come from plans and from the library's and the second program's puts. The archive is made by `tools/build`.

use std::fs;
use std::path::{Path, PathBuf};
use std::process::Command;
use std::sync::OnceLock;

use common::c_programs::compiled;
use common::dumps::dump;
use common::generators::random_sizes;
use common::{answer, run_seeds, Button, Tally};
use referee::builder::pages::{path, Pages};
use referee::builder::plan::{Built, BuiltEntry, ChainOf};
use referee::builder::random::random_image;
use referee::rng::Rng;

#[allow(dead_code)]
#[path = "../../rust/examples/bad_page.rs"]
mod example;

/// What follows if no page but the bad one differs.
const NO_OTHER: &str = "no other page differs\n";

/// What follows if so many other pages differ.
fn others(count: usize) -> String {
    format!("other pages that differ {count}: written since, or bad too; the figures are those of the last accepted dump\n")
}

/// A file for these tests.
fn scratch(name: &str) -> PathBuf {
    let folder = Path::new(env!("CARGO_TARGET_TMPDIR")).join("bad-page");
    fs::create_dir_all(&folder).expect("a folder");
    folder.join(name)
}

/// The C program, compiled once.
fn program() -> &'static Path {
    static PROGRAM: OnceLock<PathBuf> = OnceLock::new();
    PROGRAM.get_or_init(|| compiled(&scratch(""), "bad_page.c", &["-std=c99", "-pedantic"]))
}

/// What the C program prints for these files, and whether it has an answer.
fn in_c(files: &[PathBuf]) -> (bool, String) {
    let output = Command::new(program()).args(files).output();
    let output = output.expect("the example runs");
    let text = String::from_utf8(output.stdout).expect("ASCII");
    assert!(output.status.code().is_some(), "{}", output.status);
    (output.status.success(), text)
}

/// What both examples print for two dumps, and whether there is an answer. They never say that a page is free.
fn both(name: &str, last: &[u8], bad: &[u8]) -> (bool, String) {
    let files = ["last", "bad"].map(|kind| scratch(name).with_extension(kind));
    fs::write(&files[0], last).expect("a dump is written");
    fs::write(&files[1], bad).expect("a dump is written");
    let told = in_c(&files);
    let in_rust = match example::answer(last, bad) {
        Ok(text) => (true, text),
        Err(text) => (false, text),
    };
    assert_eq!(in_rust, told, "Rust and C");
    assert!(!told.1.contains("free"), "{}", told.1);
    told
}

/// The dump of an image.
fn dump_of(button: &Button, offset: u32) -> Vec<u8> {
    let (page_length, page_count) = (button.page_length as u16, button.page_count as u16);
    dump(page_length, page_count, offset, &button.image)
}

/// The image with a page that has gone bad.
fn with_bad_page(button: &Button, page: usize) -> Button {
    let mut pages = button.pages();
    pages.page_mut(page)[1] ^= 0x10;
    Button::from(&pages)
}

/// Demands the answer for a page that goes bad after the dump of an image.
fn demand(name: &str, button: &Button, page: usize, words: &str) {
    let bad = with_bad_page(button, page);
    assert_eq!(bad.verdict(), answer(2, page as u32));
    let told = both(name, &dump_of(button, 8), &dump_of(&bad, 8));
    let expected = format!("refused 2 page {page}\n{words}\n{NO_OTHER}");
    assert_eq!(told, (true, expected));
}

/// A bitmap file on pages 9 and 1; LOG.7 on pages 12, 3, 7 and 4 with 28, 0, 5 and 2 bytes; a directory BOOM on pages 5 and 6, whose second page has a
/// directory A1 on page 10, which has CNT.99 on page 11. Pages 2, 8, 13, 14 and 15 are free.
fn sample() -> Button {
    let mut pages = Pages::new(32, 16);
    let mut root = pages.file_control(9, 2);
    root.extend(pages.entry("LOG", 7, 12, 4));
    root.extend(pages.entry("BOOM", 127, 5, 0));
    let boom = pages.sub_control("ROOT", 0);
    let below = pages.entry("A1", 127, 10, 0);
    let mut lower = pages.sub_control("BOOM", 5);
    lower.extend(pages.entry("CNT", 99, 11, 1));
    pages.packet(0, &root, 0).packet(9, &[0xFB], 1);
    pages.packet(1, &[0x1E], 0).packet(5, &boom, 6);
    pages.packet(6, &below, 0).packet(10, &lower, 0);
    pages.packet(11, b"counts", 0).packet(12, &[7; 28], 3);
    pages.packet(3, b"", 7).packet(7, b"12345", 4);
    pages.packet(4, b"67", 0);
    Button::from(&pages)
}

/// First, middle and last page of a file, pages of directories, of the bitmap file and of the root.
#[test]
fn each_page_of_a_sample_is_told_with_its_owner_and_what_lies_after_it() {
    for (page, words) in [
        (
            12,
            "page 12 has place 0 of 4 in file LOG.007\nafter it pages 3 bytes 7",
        ),
        (
            3,
            "page 3 has place 1 of 4 in file LOG.007\nafter it pages 2 bytes 7",
        ),
        (
            7,
            "page 7 has place 2 of 4 in file LOG.007\nafter it pages 1 bytes 2",
        ),
        (
            4,
            "page 4 has place 3 of 4 in file LOG.007\nafter it pages 0 bytes 0",
        ),
        (
            5,
            "page 5 has place 0 of 2 in directory BOOM\nafter it pages 1 bytes 7",
        ),
        (
            6,
            "page 6 has place 1 of 2 in directory BOOM\nafter it pages 0 bytes 0",
        ),
        (
            10,
            "page 10 has place 0 of 1 in directory BOOM/A1\nafter it pages 0 bytes 0",
        ),
        (
            11,
            "page 11 has place 0 of 1 in file BOOM/A1/CNT.099\nafter it pages 0 bytes 0",
        ),
        (
            9,
            "page 9 has place 0 of 2 in the bitmap file\nafter it pages 1 bytes 1",
        ),
        (
            1,
            "page 1 has place 1 of 2 in the bitmap file\nafter it pages 0 bytes 0",
        ),
        (
            0,
            "page 0 has place 0 of 1 in the root directory\nafter it pages 0 bytes 0",
        ),
    ] {
        demand("sample", &sample(), page, words);
    }
}

/// No call looks at a page that is in no chain: the dump is accepted, whatever the page holds.
#[test]
fn a_page_that_is_in_no_chain_does_not_matter() {
    for page in [2, 8, 13, 14, 15] {
        let bad = with_bad_page(&sample(), page);
        let told = both("none", &dump_of(&sample(), 8), &dump_of(&bad, 8));
        let expected = String::from("accepted: no page in use is bad\n");
        assert_eq!(told, (true, expected));
    }
}

/// A page that a put took after the last accepted dump was free there; the answer must not say so of the page that is bad now.
#[test]
fn a_page_given_out_since_is_not_told_as_anybodys() {
    let mut button = sample();
    let (done, _) = button.put(&path(&[], "NEW", 1), &[1; 60]);
    assert_eq!(done, answer(0, 0));
    for page in [2, 8, 13] {
        let bad = with_bad_page(&button, page);
        let told = both("since", &dump_of(&sample(), 8), &dump_of(&bad, 8));
        let words = format!("page {page} was in no chain when the last dump was accepted, but is now: nothing is known of it\n");
        // Besides the bad page: two more of the file, the root, both pages of the bitmap file.
        let expected = format!("refused 2 page {page}\n{words}{}", others(2 + 1 + 2));
        assert_eq!(told, (true, expected));
    }
}

/// A file that was replaced since: the figures are those of the last accepted dump, and the answer says that pages differ.
#[test]
fn a_button_that_was_written_since_is_told_as_such() {
    let mut button = sample();
    let (done, _) = button.put(&path(&[], "LOG", 7), &[1; 50]);
    assert_eq!(done, answer(0, 0));
    // The new file has the pages 2 and 3.
    let bad = with_bad_page(&button, 3);
    let told = both("written", &dump_of(&sample(), 8), &dump_of(&bad, 8));
    let words = "page 3 has place 1 of 4 in file LOG.007\nafter it pages 2 bytes 7\n";
    let expected = format!("refused 2 page 3\n{words}{}", others(4));
    assert_eq!(told, (true, expected));
}

/// Two bad pages: the first that the check meets is told, and that another page differs.
#[test]
fn the_first_of_two_bad_pages_is_told() {
    let bad = with_bad_page(&with_bad_page(&sample(), 7), 12);
    let told = both("two", &dump_of(&sample(), 8), &dump_of(&bad, 8));
    let words = "page 12 has place 0 of 4 in file LOG.007\nafter it pages 3 bytes 7\n";
    let expected = format!("refused 2 page 12\n{words}{}", others(1));
    assert_eq!(told, (true, expected));
}

/// Refusals of another number, a last dump that is refused itself, dumps of two buttons, and bytes that are no dump.
#[test]
fn without_a_bad_page_or_records_there_is_no_answer() {
    let button = sample();
    let good = dump_of(&button, 8);
    let bad = dump_of(&with_bad_page(&button, 4), 8);
    let mut pages = button.pages();
    pages.set_pointer(4, 12);
    let crossed = dump_of(&Button::from(&pages), 8);
    let other = dump_of(&Button::formatted(32, 17, true), 8);
    let no_last = "the last accepted dump is no dump\n";
    let no_bad = "the dump with the bad page is no dump\n";
    for (last, new, words) in [
        (
            &good,
            &crossed,
            "refused 7 page 12\nthis is not the number of a bad page\n",
        ),
        (
            &crossed,
            &bad,
            "refused 2 page 4\nthe last dump is refused 7 page 12: it has no records\n",
        ),
        (
            &bad,
            &bad,
            "refused 2 page 4\nthe last dump is refused 2 page 4: it has no records\n",
        ),
        (
            &other,
            &bad,
            "refused 2 page 4\nthe dumps are not of one button\n",
        ),
        (
            &good,
            &good[..500].to_vec(),
            "refused 1 page 0\nthis is not the number of a bad page\n",
        ),
        (&good[..7].to_vec(), &bad, no_last),
        (&good, &bad[..7].to_vec(), no_bad),
        (&good, &dump(32, 16, 7, &button.image), no_bad),
        (&dump(32, 16, 40_001, &[]), &bad, no_last),
    ] {
        assert_eq!(both("no", last, new), (false, String::from(words)));
    }
    let usage = "two arguments: the last accepted dump, the dump with the bad page\n";
    assert_eq!(in_c(&[]), (false, String::from(usage)));
    let missing = [scratch("missing"), scratch("missing")];
    assert_eq!(in_c(&missing), (false, String::from(no_last)));
}

/// The words of the owner of a chain.
fn owner_words(built: &Built, chain: usize) -> String {
    let of = built.chains[chain].of;
    let entry = built.entries.iter().find(|entry| entry.chain == chain);
    match (of, entry) {
        (ChainOf::Root, _) => String::from("the root directory"),
        (ChainOf::Bitmap, _) => String::from("the bitmap file"),
        (_, Some(entry)) => entry_words(entry),
        (_, None) => panic!("a chain without an entry"),
    }
}

/// The words of an entry: its path, of a file with its extension number.
fn entry_words(entry: &BuiltEntry) -> String {
    let names = entry.path.chunks_exact(4).map(|name| {
        let text: String = name.iter().map(|&byte| char::from(byte)).collect();
        String::from(text.trim_end())
    });
    let names = names.collect::<Vec<String>>().join("/");
    match entry.listing.extension {
        127 => format!("directory {names}"),
        extension => format!("file {names}.{extension:03}"),
    }
}

/// The answer for a page of a chain of a built image.
fn known_words(built: &Built, chain: usize, place: usize) -> String {
    let pages = Button::from(built).pages();
    let all = &built.chains[chain].pages;
    let after = &all[place + 1..];
    let bytes: usize = after.iter().map(|&page| pages.body(page).len()).sum();
    let owner = owner_words(built, chain);
    let (page, count) = (all[place], all.len());
    let rest = after.len();
    format!(
        "page {page} has place {place} of {count} in {owner}\nafter it pages {rest} bytes {bytes}"
    )
}

/// Demands the answers for some pages of each kind of chain.
fn demand_some_pages(built: &Built, rng: &mut Rng, tally: &mut Tally) {
    let button = Button::from(built);
    for (chain, known) in built.chains.iter().enumerate() {
        let last = known.pages.len() - 1;
        for place in [0, rng.below(last + 1), last] {
            if !rng.chance(200 / built.chains.len()) {
                continue;
            }
            tally.add(format!("{:?}", known.of));
            let words = known_words(built, chain, place);
            demand("random", &button, known.pages[place], &words);
        }
    }
}

#[test]
fn pages_of_random_images_are_told_as_planned() {
    let mut tally = Tally::default();
    run_seeds(0xBAD0_0000..0xBAD0_0000 + 60, |_, rng| {
        let (page_length, page_count) = random_sizes(rng, 300);
        let built = random_image(page_length, page_count, rng);
        demand_some_pages(&built, rng, &mut tally);
    });
    tally.print();
    tally.demand(20, &["Root", "Bitmap", "File", "Directory"]);
}

/// A file of more than 256 pages, whose places need two bytes; the image stands behind other bytes of the dump.
#[test]
fn places_above_255_are_told() {
    let mut button = Button::formatted(32, 700, false);
    let bytes: Vec<u8> = (0..27 * 600 + 5).map(|place| place as u8).collect();
    assert_eq!(button.put(&path(&[], "LONG", 0), &bytes).0, answer(0, 0));
    // The bitmap file has the pages 1 to 4.
    for (place, after, data) in [
        (0, 600, 27 * 599 + 5),
        (255, 345, 27 * 344 + 5),
        (256, 344, 27 * 343 + 5),
        (599, 1, 5),
        (600, 0, 0),
    ] {
        let page = 5 + place;
        let bad = with_bad_page(&button, page);
        let told = both("long", &dump_of(&button, 1_000), &dump_of(&bad, 8));
        let words = format!("page {page} has place {place} of 601 in file LONG.000\nafter it pages {after} bytes {data}\n");
        let expected = format!("refused 2 page {page}\n{words}{NO_OTHER}");
        assert_eq!(told, (true, expected));
    }
}

/// The samples of the office's guide, with what the guide prints.
#[test]
fn samples_are_told_as_the_guide_prints() {
    let root = Path::new(env!("CARGO_MANIFEST_DIR")).join("..");
    let file = |name: &str| fs::read(root.join(name)).expect("a file of the repository");
    let last = file("samples/bad-page-before.dump");
    let bad = file("samples/bad-page.dump");
    let (is_answered, text) = both("sample-files", &last, &bad);
    assert!(is_answered);
    let guide = String::from_utf8(file("docs/OFFICE.md")).expect("text");
    let indented: String = text.lines().map(|line| format!("    {line}\n")).collect();
    assert!(guide.contains(&indented), "docs/OFFICE.md: {text}");
}

/// Of a directory the bytes after a bad page are those of entries and stamps: the root's second page has a stamp and two entries.
#[test]
fn bytes_after_a_bad_directory_page_count_stamps() {
    let root = Path::new(env!("CARGO_MANIFEST_DIR")).join("..");
    let last = fs::read(root.join("samples/stamps.dump")).expect("a sample");
    let mut bad = last.clone();
    bad[8 + 1] ^= 0x10;
    let (is_answered, text) = both("stamps", &last, &bad);
    assert!(is_answered);
    let words = "page 0 has place 0 of 2 in the root directory\nafter it pages 1 bytes 21";
    assert_eq!(text, format!("refused 2 page 0\n{words}\n{NO_OTHER}"));
}
