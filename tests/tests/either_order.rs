//! Two edits of different files in either order (document 02, A13): if all is done in both orders, both results have the same files, attributes and
//! bytes. Two puts, and two deletes, also leave as many pages in use; a put and a delete may differ in pages. Nothing is said where either order
//! refuses.
//!
//! Programs: the library and the second program. Each call is made by both; every answer and every lent byte is compared.
//! What an image holds is read from its packets by `contents`, and told by list and read of both programs.
//! The archive is made by `tools/build`.

use common::contents::{contents, demand_built, demand_told, Contents};
use common::edit_pairs::{pair_features, pair_plan, random_pair, FileEdit, Outcome, Pair, MET};
use common::generators::{files, largest_image};
use common::{answer, run_seeds, Button, Record, Seed, Tally, FREE};
use referee::builder::pages::{path, Pages};
use referee::builder::plan::{Built, ImagePlan};
use referee::rng::Rng;

/// An image with its plan, what it holds, and the counts of what was met.
struct Planned<'a> {
    plan: &'a ImagePlan,
    built: &'a Built,
    contents: Contents,
    tally: &'a mut Tally,
}

impl Planned<'_> {
    /// Makes a pair of edits in either order, and demands the same of both where all is done.
    fn pair(&mut self, pair: &Pair, rng: &mut Rng) {
        let [first, second] = &pair.edits;
        assert_ne!(first.path, second.path, "different files");
        let outcomes = pair.outcomes(&Button::from(self.built), rng);
        self.tally.add("pairs");
        let kind = pair.kind();
        match outcomes.each_ref().map(Outcome::is_done) {
            [true, true] => self.done(pair, &outcomes, rng),
            [false, false] => self.tally.add(format!("{kind}: refused in both orders")),
            [is_first_done, _] => {
                // Only room depends on the order: a path is well formed, there, hidden or read-only before the other edit as after it.
                let refused = &outcomes[usize::from(is_first_done)];
                assert!(refused.numbers == [0, 17] || refused.numbers == [17, 0]);
                self.tally.add(format!("{kind}: 17 in one order only"));
            }
        }
        for number in outcomes.iter().flat_map(|outcome| outcome.numbers) {
            self.tally.add(format!("edit {number}"));
        }
    }

    /// Demands the same of both results and counts what the pair met.
    fn done(&mut self, pair: &Pair, outcomes: &[Outcome; 2], rng: &mut Rng) {
        let used = pair.demand_same(&self.contents, outcomes, rng);
        let kind = pair.kind();
        self.tally.add(format!("{kind}: done in both orders"));
        if used.contains(&self.built.page_count) {
            self.tally.add(format!("{kind}: every page in use"));
        }
        if used[0] != used[1] {
            self.tally.add(format!("{kind}: other pages in use"));
        }
        if outcomes[0].button != outcomes[1].button {
            self.tally.add(format!("{kind}: other bytes of the image"));
        }
        for label in pair_features(self.plan, self.built, pair) {
            self.tally.add(label);
        }
        if self.built.image.len() * self.contents.len() <= 20_000 {
            self.tally.add("told by list and read");
            for outcome in outcomes {
                demand_told(&outcome.button, &contents(&outcome.button));
            }
        }
    }
}

/// Pairs of edits in generated images: full directories, few free pages, stamps, nested and hidden directories.
#[test]
fn two_edits_in_either_order_leave_the_same_files() {
    let mut tally = Tally::default();
    run_seeds(0xF300_0000..0xF300_0000 + 3_400, |_, rng| {
        let plan = pair_plan(rng);
        let built = plan.build();
        let contents = contents(&Button::from(&built));
        demand_built(&contents, &built);
        let mut planned = Planned {
            plan: &plan,
            built: &built,
            contents,
            tally: &mut tally,
        };
        for _ in 0..3 {
            let pair = random_pair(&plan, &built, rng);
            planned.pair(&pair, rng);
        }
    });
    tally.print();
    tally.demand(10_200, &["pairs"]);
    tally.demand(20, &MET);
    demand_outcomes(&tally);
}

/// Demands that enough pairs of each kind were done, and refused, and that their two results differed as they may.
fn demand_outcomes(tally: &Tally) {
    let mut done_in_both = 0;
    for kind in ["two puts", "a put and a delete", "two deletes"] {
        tally.demand(1_200, &[&format!("{kind}: done in both orders")]);
        done_in_both += tally.count(&format!("{kind}: done in both orders"));
        tally.demand(400, &[&format!("{kind}: refused in both orders")]);
        tally.demand(500, &[&format!("{kind}: other bytes of the image")]);
    }
    assert!(done_in_both >= 5_000, "{done_in_both} done in both orders");
    tally.demand(90, &["two puts: 17 in one order only"]);
    tally.demand(300, &["a put and a delete: 17 in one order only"]);
    tally.demand(150, &["a put and a delete: other pages in use"]);
    tally.demand(300, &["two puts: every page in use"]);
    tally.demand(3_000, &["told by list and read"]);
    tally.demand_numbers("edit", 500, [0, 15, 16, 17, 22]);
    let done = tally.count("both in one directory") + tally.count("in different directories");
    let shortest = tally.count("pages of 32 bytes");
    assert!(3 * shortest >= done, "a third has pages of 32 bytes");
}

/// Pairs of edits in images of 65,535 pages.
#[test]
fn two_edits_of_65535_pages_leave_the_same_files() {
    let mut tally = Tally::default();
    let shapes = [(32, 150, 40, 40), (48, 300, 500, 10)];
    for (place, (page_length, entries, file_pages, percent)) in shapes.into_iter().enumerate() {
        let seed = 0xF310_0000 + place as u64;
        let _seed = Seed(seed);
        let mut rng = Rng::new(seed);
        let built = largest_image(page_length, entries, file_pages, percent, seed);
        let before = Button::from(&built);
        let held = contents(&before);
        for pair in large_pairs(&built, &mut rng) {
            let outcomes = pair.outcomes(&before, &mut rng);
            assert!(outcomes.iter().all(Outcome::is_done), "{}", pair.kind());
            pair.demand_same(&held, &outcomes, &mut rng);
            tally.add(pair.kind());
        }
    }
    tally.print();
    tally.demand(2, &["two puts", "a put and a delete", "two deletes"]);
}

/// Pairs for an image of many pages: two files replaced by less, one replaced and another deleted, and two deleted.
fn large_pairs(built: &Built, rng: &mut Rng) -> [Pair; 3] {
    let mut writable = files(built);
    writable.retain(|file| file.listing.attribute == 0);
    rng.shuffle(&mut writable);
    let less = |place: usize| {
        let bytes: &[u8] = &writable[place].bytes;
        let less: Vec<u8> = bytes[..bytes.len() / 2].iter().map(|byte| !byte).collect();
        FileEdit::put(&writable[place].path, &less)
    };
    let delete = |place: usize| FileEdit::delete(&writable[place].path);
    [
        [less(0), less(1)],
        [less(2), delete(3)],
        [delete(4), delete(5)],
    ]
    .map(|edits| Pair { edits })
}

/// An image, formatted, with these directories made and then these files put into it.
fn with_files(sizes: (u32, u32, bool), directories: &[&[u8]], files: &[(&[u8], &[u8])]) -> Button {
    let (page_length, page_count, local) = sizes;
    let mut button = Button::formatted(page_length, page_count, local);
    for path in directories {
        assert_eq!(button.make_directory(path).0, answer(0, 0));
    }
    for (path, bytes) in files {
        assert_eq!(button.put(path, bytes).0, answer(0, 0));
    }
    button
}

/// Makes a pair of edits in either order, demands that all is done with the same files left, and tells the results and their pages in use.
fn done(before: &Button, edits: [FileEdit; 2]) -> ([Outcome; 2], [u32; 2]) {
    let mut rng = Rng::new(0xF320_0000);
    let pair = Pair { edits };
    let outcomes = pair.outcomes(before, &mut rng);
    assert!(outcomes.iter().all(Outcome::is_done), "{outcomes:?}");
    let used = pair.demand_same(&contents(before), &outcomes, &mut rng);
    for outcome in &outcomes {
        demand_told(&outcome.button, &contents(&outcome.button));
    }
    (outcomes, used)
}

/// Demands the records of the pages in use, each with its page, and that all others are free.
fn demand_owners(outcome: &Outcome, expected: &[(usize, u16, u16)]) {
    let owners = outcome.button.check().1;
    let used = owners.into_iter().enumerate();
    let used: Vec<(usize, Record)> = used.filter(|(_, record)| *record != FREE).collect();
    let expected = expected.iter();
    let expected: Vec<(usize, Record)> = expected
        .map(|&(page, owner, place)| (page, (owner, place)))
        .collect();
    assert_eq!(used, expected);
}

/// Three files fill page 0. If the put is first, page 4 joins the root and stays there; if the delete is first, the new entry has its space.
#[test]
fn put_and_delete_differ_by_the_page_that_the_root_grows() {
    let files: [(&[u8], &[u8]); 3] = [
        (b"A   \x01", b"one"),
        (b"B   \x01", b"two"),
        (b"C   \x01", b"three"),
    ];
    let before = with_files((32, 16, true), &[], &files);
    assert_eq!(before.check().0.used, 4);
    let put = FileEdit::put(b"NEW \x01", b"four");
    let (outcomes, used) = done(&before, [put, FileEdit::delete(b"A   \x01")]);
    assert_eq!(used, [5, 4]);
    let records = [(0, 1, 0), (2, 3, 0), (3, 4, 0), (4, 1, 1), (5, 5, 0)];
    demand_owners(&outcomes[0], &records);
    let records = [(0, 1, 0), (1, 5, 0), (2, 3, 0), (3, 4, 0)];
    demand_owners(&outcomes[1], &records);
}

/// The same in a subdirectory whose first page has two entries, with two-byte page numbers and a bitmap file of two pages.
#[test]
fn put_and_delete_differ_by_the_page_that_a_subdirectory_grows() {
    let files: [(&[u8], &[u8]); 2] = [(b"SUB A   \x01", b"one"), (b"SUB B   \x01", b"two")];
    let before = with_files((32, 300, false), &[b"SUB "], &files);
    assert_eq!(before.check().0.used, 6);
    let put = FileEdit::put(b"SUB NEW \x01", b"");
    let delete = FileEdit::delete(b"SUB B   \x01");
    let (outcomes, used) = done(&before, [delete, put]);
    assert_eq!(used, [6, 7]);
    let bitmap = [(0, 1, 0), (1, 2, 0), (2, 2, 1), (3, 3, 0), (4, 4, 0)];
    demand_owners(&outcomes[0], &[&bitmap[..], &[(5, 5, 0)]].concat());
    let records = [(6, 3, 1), (7, 5, 0)];
    demand_owners(&outcomes[1], &[&bitmap[..], &records].concat());
}

/// Two new files for a directory with one space: whichever is second makes it grow, so the pages are other ones but as many.
#[test]
fn two_puts_make_a_directory_grow_by_one_page_in_either_order() {
    let files: [(&[u8], &[u8]); 2] = [(b"A   \x01", b"one"), (b"B   \x01", b"two")];
    let before = with_files((32, 16, true), &[], &files);
    let edits = [
        FileEdit::put(b"NEW \x01", &[7; 29]),
        FileEdit::put(b"NEW \x02", b""),
    ];
    let (outcomes, used) = done(&before, edits);
    assert_eq!(used, [7, 7]);
    let records = [(0, 1, 0), (1, 3, 0), (2, 4, 0), (3, 5, 0), (4, 5, 1)];
    demand_owners(
        &outcomes[0],
        &[&records[..], &[(5, 1, 1), (6, 6, 0)]].concat(),
    );
    let records = [(0, 1, 0), (1, 3, 0), (2, 4, 0), (3, 5, 0), (4, 1, 1)];
    demand_owners(
        &outcomes[1],
        &[&records[..], &[(5, 6, 0), (6, 6, 1)]].concat(),
    );
}

/// Two edits of one file: the later one decides, so A13 must speak of different paths.
#[test]
fn two_edits_of_one_file_depend_on_their_order() {
    let file = path(&[], "DEMO", 12);
    let before = with_files((32, 16, true), &[], &[(&file, b"OLD")]);
    let mut rng = Rng::new(0xF330_0000);
    let mut left = |edits: [FileEdit; 2]| {
        let outcomes = Pair { edits }.outcomes(&before, &mut rng);
        assert!(outcomes.iter().all(Outcome::is_done));
        outcomes.map(|outcome| {
            let (number, bytes) = outcome.button.read(&file);
            (number, bytes, outcome.button.check().0.used)
        })
    };
    let long = [9; 29].to_vec();
    let puts = left([FileEdit::put(&file, b"TEST"), FileEdit::put(&file, &long)]);
    assert_eq!(puts, [(0, long, 3), (0, b"TEST".to_vec(), 2)]);
    let mixed = left([FileEdit::put(&file, b"TEST"), FileEdit::delete(&file)]);
    // The other order is done too: the put makes the file that the delete has removed.
    assert_eq!(mixed, [(15, Vec::new(), 1), (0, b"TEST".to_vec(), 2)]);
}

/// The directories of the image for paths that are near to each other.
const DIRECTORIES: [&[u8]; 5] = [b"A   ", b"B   ", b"AB  ", b"A   A   ", b"A   B   "];

/// Two paths that differ in one byte, or in the directories before one name.
fn near_paths() -> Vec<[Vec<u8>; 2]> {
    vec![
        [path(&[], "B", 1), path(&[], "B", 2)],
        [path(&[], "B", 0), path(&[], "B", 99)],
        [path(&[], "B", 1), path(&[], "C", 1)],
        [path(&[], "B", 1), path(&[], "BC", 1)],
        [path(&[], "ABCD", 1), path(&[], "ABCE", 1)],
        [path(&["A"], "B", 1), path(&[], "B", 1)],
        [path(&["A"], "B", 1), path(&[], "A", 1)],
        [path(&["A"], "B", 1), path(&["A"], "B", 2)],
        [path(&["A"], "B", 1), path(&["B"], "B", 1)],
        [path(&["A"], "B", 1), path(&["B"], "A", 1)],
        [path(&["A"], "B", 1), path(&["AB"], "B", 1)],
        [path(&["A"], "B", 1), path(&["A", "A"], "B", 1)],
        [path(&["A"], "B", 1), path(&["A", "B"], "B", 1)],
        [path(&["A", "A"], "B", 1), path(&["A", "B"], "B", 1)],
        [path(&["A", "B"], "B", 1), path(&["B"], "B", 1)],
    ]
}

/// Every pair of puts and deletes of two paths that is done, by which of the two files are there before.
fn pairs_of(paths: &[Vec<u8>; 2], there: [bool; 2]) -> Vec<Pair> {
    let edits = [0, 1].map(|place| {
        let put = FileEdit::put(&paths[place], &vec![place as u8; 20 + 20 * place]);
        let delete = FileEdit::delete(&paths[place]);
        match there[place] {
            true => vec![put, delete],
            false => vec![put],
        }
    });
    let [first, second] = &edits;
    let with = |one: &FileEdit| {
        let pair = |other: &FileEdit| [one.clone(), other.clone()];
        second.iter().map(pair).collect::<Vec<_>>()
    };
    let pairs = first.iter().flat_map(with);
    pairs.map(|edits| Pair { edits }).collect()
}

/// Paths that are near to each other are different files all the same, whether they are there before or not.
#[test]
fn edits_of_near_paths_are_edits_of_different_files() {
    let mut pairs_done = 0;
    for paths in near_paths() {
        for there in [[false, false], [false, true], [true, false], [true, true]] {
            let both: Vec<(&[u8], &[u8])> = vec![(&paths[0], b"0 old"), (&paths[1], b"1 old")];
            let old = both.into_iter().zip(there).filter(|(_, there)| *there);
            let old: Vec<(&[u8], &[u8])> = old.map(|(file, _)| file).collect();
            let before = with_files((32, 64, false), &DIRECTORIES, &old);
            for pair in pairs_of(&paths, there) {
                done(&before, pair.edits);
                pairs_done += 1;
            }
        }
    }
    assert_eq!(pairs_done, 15 * 9);
}

/// The numbers that a pair answers in each order, and the pages in use afterwards.
fn told(before: &Button, edits: [FileEdit; 2]) -> [([u32; 2], u32); 2] {
    let mut rng = Rng::new(0xF340_0000);
    let outcomes = Pair { edits }.outcomes(before, &mut rng);
    outcomes.map(|outcome| (outcome.numbers, outcome.totals(&mut rng).used))
}

/// A file on 14 of 16 pages: another of 15 pages has room only after its delete, and one of 14 pages only after it is replaced by no bytes.
#[test]
fn put_is_17_in_the_order_in_which_no_pages_are_freed_before() {
    let before = with_files((32, 16, true), &[], &[(b"BIG \x01", &[1; 392])]);
    assert_eq!(before.check().0.used, 15);
    let put = FileEdit::put(b"NEW \x01", &[2; 420]);
    let pair = [put, FileEdit::delete(b"BIG \x01")];
    assert_eq!(told(&before, pair), [([17, 0], 1), ([0, 0], 16)]);
    let put = FileEdit::put(b"NEW \x01", &[2; 392]);
    let pair = [FileEdit::put(b"BIG \x01", b""), put];
    assert_eq!(told(&before, pair), [([0, 0], 16), ([0, 17], 2)]);
}

/// A full root and one free page: a new file has room only after a delete has made space for its entry.
#[test]
fn put_is_17_in_the_order_in_which_the_root_must_grow() {
    let files: [(&[u8], &[u8]); 3] = [
        (b"A   \x01", b"one"),
        (b"B   \x01", b"two"),
        (b"C   \x01", b"three"),
    ];
    let before = with_files((32, 5, true), &[], &files);
    let put = FileEdit::put(b"NEW \x01", b"four");
    let pair = [put, FileEdit::delete(b"B   \x01")];
    assert_eq!(told(&before, pair), [([17, 0], 3), ([0, 0], 4)]);
}

/// An image whose root has a stamp before A.1, and two before B.1, which is read-only or not.
fn with_stamps(read_only: bool) -> Button {
    let mut pages = Pages::new(64, 16);
    let stamps = [1, 2, 3].map(|number| [&[0x80 + number][..], &[number; 6]].concat());
    let body = [
        pages.local_control(&[0, 1, 2]),
        stamps[0].clone(),
        pages.entry("A", 1, 1, 1),
        stamps[1].clone(),
        stamps[2].clone(),
        pages.entry("B", 1 | u8::from(read_only) << 7, 2, 1),
    ]
    .concat();
    pages.packet(0, &body, 0);
    pages.packet(1, b"A", 0).packet(2, b"B", 0);
    Button::from(&pages)
}

/// A replaced file keeps its stamps and a deleted one loses its own, in either order.
#[test]
fn stamps_are_the_same_after_either_order() {
    let before = with_stamps(false);
    let stamps = |outcome: &Outcome, file: &[u8]| -> Option<Vec<u8>> {
        let held = contents(&outcome.button);
        let found = held.get(file)?;
        Some(found.stamps.iter().map(|stamp| stamp[1]).collect())
    };
    let [a, b] = ["A", "B"].map(|text| path(&[], text, 1));
    let put = |file: &[u8]| FileEdit::put(file, b"new");
    let cases = [
        ([put(&a), put(&b)], [Some(vec![1_u8]), Some(vec![2, 3])]),
        ([put(&a), FileEdit::delete(&b)], [Some(vec![1]), None]),
        ([FileEdit::delete(&a), put(&b)], [None, Some(vec![2, 3])]),
        ([FileEdit::delete(&a), FileEdit::delete(&b)], [None, None]),
    ];
    for (edits, expected) in cases {
        for outcome in done(&before, edits).0 {
            assert_eq!([stamps(&outcome, &a), stamps(&outcome, &b)], expected);
        }
    }
}

/// A read-only file refuses in either order, and the other edit is done.
#[test]
fn read_only_file_refuses_in_either_order() {
    let before = with_stamps(true);
    let put = FileEdit::put(b"A   \x01", &[5; 61]);
    for edit in [
        FileEdit::put(b"B   \x01", b"new"),
        FileEdit::delete(b"B   \x01"),
    ] {
        let numbers = told(&before, [put.clone(), edit]);
        assert_eq!(numbers, [([0, 16], 4); 2]);
    }
}
