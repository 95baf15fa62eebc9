//! Every dump in `samples/` with the text that stands beside it.
//!
//! Programs: the second program in one test, the program `list` in another; both the second program and the library make the samples of a stopped put
//! of a bad page and of a new directory, judge those of owner stamps and of a hidden directory, and total the count files of those with counts.
//! `tools/build` makes `list` and the archive.

use std::fs;
use std::path::{Path, PathBuf};

use common::dumps::{dump, list_program};
use common::reports::{add_all, count_file, count_file_with, totals};
use common::{agreed, answer, chain_of, mended, no_writes, writes, Button, Tally};
use referee::builder::pages::{path, Pages};
use referee::{list_text, Report};

/// A sample dump.
fn sample(name: &str) -> Vec<u8> {
    let folder = PathBuf::from(env!("CARGO_MANIFEST_DIR")).join("../samples");
    fs::read(folder.join(name)).unwrap_or_else(|error| panic!("{name}: {error}"))
}

/// The sample dumps.
fn dumps() -> Vec<PathBuf> {
    let folder = PathBuf::from(env!("CARGO_MANIFEST_DIR")).join("../samples");
    let files = fs::read_dir(folder).expect("the folder of samples");
    let paths = files.map(|file| file.expect("a file").path());
    paths
        .filter(|path| path.extension().is_some_and(|kind| kind == "dump"))
        .collect()
}

/// The text beside a dump.
fn text_beside(dump: &Path) -> Vec<u8> {
    fs::read(dump.with_extension("txt")).expect("the text beside a dump")
}

#[test]
fn the_second_program_makes_each_text() {
    for dump in dumps() {
        let printed = list_text(&fs::read(&dump).expect("a dump"));
        assert_eq!(printed, text_beside(&dump), "{}", dump.display());
    }
}

#[test]
fn list_prints_each_text() {
    for dump in dumps() {
        let printed = list_program(&fs::read(&dump).expect("a dump"));
        assert_eq!(printed, text_beside(&dump), "{}", dump.display());
    }
}

/// Every number that `list` can print has a sample, and there are several good ones.
#[test]
fn every_number_has_a_sample() {
    let mut tally = Tally::default();
    for dump in dumps() {
        let text = String::from_utf8(text_beside(&dump)).expect("ASCII");
        match text.strip_prefix("refused ") {
            Some(refusal) => tally.add(format!("refused {}", refusal.split(' ').next().unwrap())),
            None => tally.add("accepted"),
        }
    }
    tally.demand(5, &["accepted"]);
    tally.demand_numbers("refused", 1, (1..=13).chain([19]));
}

/// The sample of a put that was stopped after three of its six writes, marks and two pages of the file, and the one that a mend makes of it.
#[test]
fn stopped_put_and_mended_one_are_made_by_a_careful_put_and_a_mend() {
    let log = path(&[], "LOG", 7);
    let mut button = Button::formatted(32, 16, true);
    let old = b"Monday 12, Tuesday 15, Wednesday 9";
    let new = b"Monday 12, Tuesday 15, Wednesday 9, Thursday 11, Friday 14, Saturday 3";
    assert_eq!(button.put(&path(&[], "DEMO", 12), b"TEST").0, answer(0, 0));
    assert_eq!(button.put(&log, old).0, answer(0, 0));
    let whole = button.clone().careful_put(&log, new, u32::MAX).0;
    assert_eq!(whole, writes(6, false));
    assert_eq!(button.careful_put(&log, new, 3).0, writes(3, true));
    assert_eq!(dump(32, 16, 8, &button.image), sample("stopped-put.dump"));
    assert_eq!(button.mend().0, mended(3));
    assert_eq!(
        dump(32, 16, 8, &button.image),
        sample("stopped-put-mended.dump")
    );
    assert_eq!(button.read(&log), (0, old.to_vec()));
}

/// The sample of a page that has gone bad, the second of the four of LOG.7, and the dump before it.
#[test]
fn bad_page_and_the_dump_before_it_are_made_by_puts() {
    let mut button = Button::formatted(32, 16, true);
    let log = b"Monday 12, Tuesday 15, Wednesday 9, Thursday 11, Friday 14, Saturday 3, Monday 8, Tuesday 10";
    assert_eq!(button.put(&path(&[], "DEMO", 12), b"TEST").0, answer(0, 0));
    let (done, owners) = button.put(&path(&[], "LOG", 7), log);
    assert_eq!(done, answer(0, 0));
    assert_eq!(chain_of(&owners, 4), [2, 3, 4, 5]);
    let before = dump(32, 16, 8, &button.image);
    assert_eq!(before, sample("bad-page-before.dump"));
    button.image[3 * 32 + 10] ^= 0x04;
    assert_eq!(button.verdict(), answer(2, 3));
    assert_eq!(dump(32, 16, 8, &button.image), sample("bad-page.dump"));
}

/// A stamp of the owner with this number; to a reader that knows no stamps it is a file on page 1.
fn stamp(number: u8) -> Vec<u8> {
    [&[b'O' | 0x80], &b"WNER"[..], &[1, number]].concat()
}

/// A button with owner stamps. Two stand before LOG.7 and fill the root's first page with it; one stands before the entry of the directory JIB, on
/// the root's second page. `jib` are the slots on JIB's page, `next` the page after it, if there is one.
fn stamped(jib: &[Vec<u8>], next: usize) -> Pages {
    let mut pages = Pages::new(32, 16);
    let marked: Vec<usize> = (0..8).chain((next > 0).then_some(next)).collect();
    let root = [
        pages.local_control(&marked),
        stamp(1),
        stamp(2),
        pages.entry("LOG", 7, 1, 2),
    ];
    let second = [
        stamp(1),
        pages.entry("JIB", 127, 4, 0),
        pages.entry("DEMO", 12, 7, 1),
    ];
    let jib = [pages.sub_control("ROOT", 0), jib.concat()];
    pages.packet(0, &root.concat(), 3);
    pages.packet(1, b"Monday 12, Tuesday 15, Wedne", 2);
    pages.packet(2, b"sday 9", 0);
    pages.packet(3, &second.concat(), 0);
    pages.packet(4, &jib.concat(), next);
    pages.packet(5, b"four pins", 0).packet(6, b"12 t", 0);
    pages.packet(7, b"TEST", 0);
    pages
}

/// The sample with stamps: JIB's only page is full because of the one between PINS.1 and RAIL.2, so a file more there takes two pages.
#[test]
fn stamps_are_accepted_and_kept() {
    let slots = Pages::new(32, 16);
    let jib = [
        slots.entry("PINS", 1, 5, 1),
        stamp(2),
        slots.entry("RAIL", 0x82, 6, 1),
    ];
    let pages = stamped(&jib, 0);
    assert_eq!(dump(32, 16, 8, &pages.image), sample("stamps.dump"));
    let mut button = Button::from(&pages);
    let new = path(&["JIB"], "NEW", 3);
    let (done, owners) = button.put(&new, b"new");
    assert_eq!(done, answer(0, 0));
    assert_eq!(chain_of(&owners, 4), [4, 8]);
    assert_eq!(chain_of(&owners, 7), [9]);
    assert_eq!(button.put(&path(&[], "LOG", 7), b"").0, answer(0, 0));
    assert_eq!(button.pages().body(0)[7..21], [stamp(1), stamp(2)].concat());
    assert_eq!(button.pages().body(4)[14..21], stamp(2));
}

/// The sample with a stamp at the end of JIB's first page: the entry of RAIL.2 stands on the next page, where the stamp is none of its own.
#[test]
fn stamp_without_its_entry_is_10() {
    let slots = Pages::new(32, 16);
    let mut pages = stamped(&[slots.entry("PINS", 1, 5, 1), stamp(2)], 8);
    pages.packet(8, &slots.entry("RAIL", 0x82, 6, 1), 0);
    let sample = sample("stamp-without-entry.dump");
    assert_eq!(dump(32, 16, 8, &pages.image), sample);
    Button::from(&pages).refused_by_all(10, 4);
    let whole = pages.body(4);
    pages.packet(4, &whole[..14], 8);
    assert_eq!(Button::from(&pages).verdict(), answer(0, 0));
}

/// The sample with a hidden directory MAKR: CAL.1 and what is in its directory LOGS are listed and read, and not changed; beside it files are.
#[test]
fn files_below_a_hidden_directory_are_read_and_not_changed() {
    let mut pages = Pages::new(32, 16);
    let root = [
        pages.local_control(&(0..8).collect::<Vec<usize>>()),
        pages.entry("DEMO", 12, 1, 1),
        pages.entry("MAKR", 0xFF, 2, 0),
        pages.entry("CREW", 127, 6, 0),
    ];
    let makr = [
        pages.sub_control("ROOT", 0),
        pages.entry("CAL", 1, 3, 1),
        pages.entry("LOGS", 127, 4, 0),
    ];
    let logs = [pages.sub_control("MAKR", 2), pages.entry("CNT", 7, 5, 1)];
    let crew = [pages.sub_control("ROOT", 0), pages.entry("CNT", 7, 7, 1)];
    pages.packet(0, &root.concat(), 0).packet(1, b"TEST", 0);
    pages
        .packet(2, &makr.concat(), 0)
        .packet(3, b"offset 12", 0);
    pages
        .packet(4, &logs.concat(), 0)
        .packet(5, b"Monday 12", 0);
    pages.packet(6, &crew.concat(), 0);
    pages.packet(7, b"Monday 12, Tuesday 15", 0);
    let sample = sample("hidden-directory.dump");
    assert_eq!(dump(32, 16, 8, &pages.image), sample);
    let button = Button::from(&pages);
    let count = path(&["MAKR", "LOGS"], "CNT", 7);
    assert_eq!(button.read(&count), (0, b"Monday 12".to_vec()));
    for hidden in [path(&["MAKR"], "CAL", 1), count] {
        let mut edited = button.clone();
        assert_eq!(edited.put(&hidden, b"Tuesday 15").0, answer(22, 0));
        assert_eq!(edited.delete(&hidden).0, answer(22, 0));
        let none = no_writes(22, 0);
        assert_eq!(edited.careful_put(&hidden, b"Tuesday 15", 9).0, none);
        assert_eq!(edited.careful_delete(&hidden, 9).0, none);
        assert_eq!(edited, button);
    }
    let mut edited = button.clone();
    let crew = path(&["CREW"], "CNT", 7);
    assert_eq!(edited.put(&crew, b"Friday 14").0, answer(0, 0));
    assert_eq!(edited.delete(&crew).0, answer(0, 0));
}

/// The sample with a directory for each of three booms: BM01 has a file, BM02 and BM03 have none yet. The entry of BM03, which was made last, stands on
/// the page that joined the root, since page 0 is full, and its own page is the next.
#[test]
fn new_directories_are_made_and_an_empty_one_is_removed() {
    let mut button = Button::formatted(32, 16, true);
    let count = path(&["BM01"], "CNT", 7);
    assert_eq!(button.put(&path(&[], "DEMO", 12), b"TEST").0, answer(0, 0));
    assert_eq!(button.make_directory(b"BM01").0, answer(0, 0));
    assert_eq!(button.put(&count, b"Monday 12").0, answer(0, 0));
    assert_eq!(button.make_directory(b"BM02").0, answer(0, 0));
    let (done, owners) = button.make_directory(b"BM03");
    assert_eq!(done, answer(0, 0));
    assert_eq!(chain_of(&owners, 1), [0, 5]);
    assert_eq!(chain_of(&owners, 7), [6]);
    assert_eq!(dump(32, 16, 8, &button.image), sample("new-directory.dump"));
    assert_eq!(button.make_directory(b"BM03").0, answer(21, 0));
    assert_eq!(button.remove_directory(b"BM01").0, answer(20, 0));
    assert_eq!(button.remove_directory(b"BM02").0, answer(0, 0));
    assert_eq!(button.read(&count), (0, b"Monday 12".to_vec()));
}

/// The sample with counts: LOAD.7, BOOM/LOAD.7, which has four bytes between its header and its rows, and BOOM/IDLE.7, which has no rows. NOTE.12 is no
/// count file.
#[test]
fn count_files_are_totalled() {
    let mut pages = Pages::new(32, 16);
    let root = [
        pages.local_control(&(0..6).collect::<Vec<usize>>()),
        pages.entry("LOAD", 7, 1, 1),
        pages.entry("NOTE", 12, 2, 1),
        pages.entry("BOOM", 127, 3, 0),
    ];
    let boom = [
        pages.sub_control("ROOT", 0),
        pages.entry("LOAD", 7, 4, 1),
        pages.entry("IDLE", 7, 5, 1),
    ];
    let load = count_file(&[(100, 200, 1_000), (-50, 300, 20), (250, 380, 3)]);
    let boom_load = count_file_with(b"BOOM", &[(120, 610, 2), (300, 300, 1)]);
    pages.packet(0, &root.concat(), 0).packet(1, &load, 0);
    pages.packet(2, b"week 12", 0).packet(3, &boom.concat(), 0);
    pages
        .packet(4, &boom_load, 0)
        .packet(5, &count_file(&[]), 0);
    assert_eq!(dump(32, 16, 8, &pages.image), sample("counts.dump"));
    let button = Button::from(&pages);
    let paths = [
        path(&[], "LOAD", 7),
        path(&["BOOM"], "LOAD", 7),
        path(&["BOOM"], "IDLE", 7),
    ];
    let start = agreed::report_start(900, 50);
    let expected = Report {
        cycles: 1_026,
        near: 5,
        greatest: 900,
        has_greatest: 1,
        files: 3,
        ..start
    };
    let files = paths.map(|path| button.read(&path).1);
    assert_eq!(totals(start, &files), expected);
}

/// The sample with a count file that was cut: LOAD.7 has two of its three rows and half of the last. The button is accepted, the file is 24.
#[test]
fn count_file_that_was_cut_is_24() {
    let mut button = Button::formatted(32, 16, true);
    let (load, pins) = (path(&[], "LOAD", 7), path(&[], "PINS", 8));
    let whole = count_file(&[(100, 200, 1_000), (-50, 300, 20), (250, 380, 3)]);
    assert_eq!(button.put(&load, &whole[..24]).0, answer(0, 0));
    let row = count_file(&[(10, 20, 7)]);
    assert_eq!(button.put(&pins, &row).0, answer(0, 0));
    assert_eq!(dump(32, 16, 8, &button.image), sample("counts-cut.dump"));
    let files = [load, pins].map(|path| button.read(&path).1);
    let (told, numbers) = add_all(agreed::report_start(900, 50), &files);
    assert_eq!(numbers, [24, 0]);
    assert_eq!((told.files, told.cycles, told.greatest), (1, 7, 40));
}
