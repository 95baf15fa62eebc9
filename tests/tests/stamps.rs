//! Stamps, that is extended entries before the entry they belong to (document 02, A2): check, list, read, owner records, put, delete, careful put and
//! careful delete with every stopping point, and mend.
//!
//! Programs: the library and the second program. Each call is made by both; every answer and every lent byte is compared. Of generated images the
//! answers and the image afterwards are known by construction besides. The archive is made by `tools/build`.

use common::generators::{
    files, stamp_count, stamp_features, stamped_plan, with_stamps_made_plain, STAMPS, STAMP_COUNTS,
};
use common::plans::{
    directories, geometry, is_hidden, overlaid, page_with_space, plan_with, plan_without, Room,
};
use common::puts::{labelled_path, path_in, random_bytes};
use common::stops::{careful_edit, with_flipped_bits, Careful, Edit};
use common::write_orders::Planned;
use common::{
    answer, chain_of, mended, no_writes, records, run_seeds, writes, Button, Tally, FREE,
};
use referee::builder::fault::{with_fault, with_random_changes, with_two_faults};
use referee::builder::pages::{name, path, Pages};
use referee::builder::plan::{Built, BuiltChain, BuiltEntry, ChainOf, DirectoryPlan, ImagePlan};
use referee::builder::random::random_stamp;
use referee::rng::Rng;

/// The first seed of each test.
const READS: u64 = 0xF600_0000;
const PUTS: u64 = 0xF610_0000;
const DELETES: u64 = 0xF620_0000;
const CAREFUL: u64 = 0xF630_0000;
const MENDS: u64 = 0xF640_0000;
const FAULTS: u64 = 0xF650_0000;
const LOOSE: u64 = 0xF660_0000;

/// A slot of a directory page written by hand: a stamp, or a file of one page with extension 1.
#[derive(Clone, Copy)]
enum Slot {
    /// A stamp with this first byte.
    Stamp(u8),
    File(&'static str, usize),
}

use Slot::{File, Stamp};

/// The bytes of slots. A stamp's bytes after the first look like an entry that crosses the root and is a directory's.
fn slots(pages: &Pages, slots: &[Slot]) -> Vec<u8> {
    let slot = |slot: &Slot| match *slot {
        File(text, start) => pages.entry(text, 1, start, 1),
        Stamp(first) => {
            let mut stamp = pages.entry("XYZ", 0x7F, 0, 9);
            stamp[0] = first;
            stamp
        }
    };
    slots.iter().flat_map(slot).collect()
}

/// A root of 16 pages of 32 bytes with a local bitmap that marks these pages and so many slots; one-page files on the pages that they name.
fn root(marked: &[usize], of: &[Slot]) -> Pages {
    let mut pages = Pages::new(32, 16);
    let body = [pages.local_control(marked), slots(&pages, of)].concat();
    pages.packet(0, &body, 0);
    write_files(&mut pages, of);
    pages
}

/// Writes the page of each file, with its name as its bytes; page 0 is the root's.
fn write_files(pages: &mut Pages, of: &[Slot]) {
    for slot in of {
        match *slot {
            File(text, start) if start > 0 => pages.packet(start, text.as_bytes(), 0),
            _ => continue,
        };
    }
}

/// A root as above with a second page of slots, page 5.
fn two_pages(marked: &[usize], first: &[Slot], second: &[Slot]) -> Pages {
    let mut pages = root(marked, first);
    let body = slots(&pages, second);
    pages.set_pointer(0, 5).packet(5, &body, 0);
    write_files(&mut pages, second);
    pages
}

/// Demands the slots of a page behind its control field.
fn demand_slots(button: &Button, page: usize, of: &[Slot]) {
    let pages = button.pages();
    let control = if page == 0 { 7 } else { 0 };
    assert_eq!(
        pages.body(page)[control..],
        slots(&pages, of),
        "page {page}"
    );
}

/// Demands that the image is accepted and lists just these files.
fn demand_files(button: &Button, texts: &[&str]) {
    assert_eq!(button.verdict(), answer(0, 0));
    let names: Vec<u32> = button.list_all().iter().map(|one| one.name).collect();
    let expected = texts.iter().map(|text| u32::from_le_bytes(name(text)));
    assert_eq!(names, expected.collect::<Vec<u32>>());
}

/// Demands a refusal from every call.
fn refused(pages: &Pages, number: u32, page: u32) {
    Button::from(pages).refused_by_all(number, page);
}

#[test]
fn one_stamp_and_two_are_passed_over() {
    for stamps in [&[Stamp(0x80)][..], &[Stamp(0xFF), Stamp(0xAA)]] {
        let of = [stamps, &[File("A", 1)]].concat();
        let button = Button::from(&root(&[0, 1], &of));
        let (totals, owners) = button.check();
        assert_eq!(
            (totals.number, totals.used, totals.files, totals.directories),
            (0, 2, 1, 0)
        );
        assert_eq!(owners[..3], [(1, 0), (3, 0), FREE]);
        demand_files(&button, &["A"]);
        assert_eq!(button.read(b"A   \x01"), (0, b"A".to_vec()));
        assert_eq!(button.list(1).0.number, 15);
    }
}

/// Bytes from 128 make a stamp; with any other first byte it is an entry: a name with count 9 and extension 127 is 8, all else 9.
#[test]
fn first_byte_decides_what_is_a_stamp() {
    for first in 0..=255_u8 {
        let is_name = first.is_ascii_uppercase()
            || first.is_ascii_digit()
            || b"!#$%&'@^_`{}~".contains(&first);
        let expected = match first {
            128..=255 => answer(0, 0),
            _ if is_name => answer(8, 0),
            _ => answer(9, 0),
        };
        let pages = root(&[0, 1], &[Stamp(first), File("A", 1)]);
        assert_eq!(Button::from(&pages).verdict(), expected, "{first}");
    }
}

#[test]
fn loose_stamp_is_10_at_its_page() {
    refused(&root(&[0], &[Stamp(0x80)]), 10, 0);
    refused(&root(&[0, 1], &[File("A", 1), Stamp(0xC1)]), 10, 0);
    refused(
        &root(&[0, 1], &[File("A", 1), Stamp(0xC1), Stamp(0xFF)]),
        10,
        0,
    );
    let marked = [0, 1, 2, 5];
    let alone = two_pages(&marked, &[File("A", 1)], &[Stamp(0x80)]);
    refused(&alone, 10, 5);
    let behind = two_pages(&marked, &[File("A", 1)], &[File("B", 2), Stamp(0x80)]);
    refused(&behind, 10, 5);
    // Its entry is in the next page.
    let before = two_pages(&marked, &[File("A", 1), Stamp(0x80)], &[File("B", 2)]);
    refused(&before, 10, 0);
}

/// A loose stamp is met as an entry, in chain order with the others.
#[test]
fn loose_stamp_is_met_in_chain_order() {
    let marked = [0, 1, 2, 5];
    refused(&two_pages(&marked, &[File("a", 1)], &[Stamp(0x80)]), 9, 0);
    refused(&two_pages(&marked, &[Stamp(0x80)], &[File("a", 1)]), 10, 0);
    refused(&root(&marked, &[File("a", 1), Stamp(0x80)]), 9, 0);
    refused(&root(&marked, &[File("A", 0), Stamp(0x90)]), 6, 0);
    // A page of the chain that is broken, or whose entries are not whole, is met before all entries.
    let mut broken = two_pages(&marked, &[File("A", 1), Stamp(0x80)], &[File("B", 2)]);
    broken.break_check(5);
    refused(&broken, 2, 5);
    let mut cut = two_pages(&marked, &[Stamp(0x80)], &[File("B", 2)]);
    cut.packet(5, b"B  ", 0);
    refused(&cut, 8, 5);
    // The file before it is walked first, what is behind it never.
    let mut file = two_pages(&marked, &[File("A", 1), Stamp(0x80)], &[File("B", 2)]);
    file.break_check(2);
    refused(&file, 10, 0);
    file.break_check(1);
    refused(&file, 2, 1);
}

#[test]
fn faults_of_an_entry_with_stamps_are_as_without() {
    refused(&root(&[0, 1], &[Stamp(0x80), File("a", 1)]), 9, 0);
    refused(
        &root(&[0, 1], &[Stamp(0x80), Stamp(0x80), File("", 1)]),
        9,
        0,
    );
    let twice = [File("A", 1), Stamp(0x80), File("A", 2)];
    refused(&root(&[0, 1, 2], &twice), 11, 0);
    refused(&root(&[0, 1], &[Stamp(0x80), File("A", 0)]), 6, 0);
    for extension in [100, 126, 0xE4, 0xFE] {
        let mut pages = root(&[0, 1], &[Stamp(0x80), File("A", 1)]);
        pages.alter(0, 8 + 7 + 4, &[extension]);
        refused(&pages, 10, 0);
    }
}

/// Stamps are compared with nothing: not with each other, nor with entries.
#[test]
fn equal_stamps_and_stamps_like_their_entry_are_accepted() {
    let equal = [Stamp(0x80), Stamp(0x80), File("A", 1)];
    demand_files(&Button::from(&root(&[0, 1], &equal)), &["A"]);
    let mut pages = root(&[0, 1], &[Stamp(0x80), File("A", 1)]);
    let entry = pages.entry("A", 1, 1, 1);
    pages.alter(0, 8, &entry).alter(0, 8, &[b'A' | 0x80]);
    demand_files(&Button::from(&pages), &["A"]);
    // Behind an entry that it looks like, before another.
    let mut pages = root(&[0, 1, 2], &[File("A", 1), Stamp(0x80), File("B", 2)]);
    pages.alter(0, 15, &entry).alter(0, 15, &[b'A' | 0x80]);
    demand_files(&Button::from(&pages), &["A", "B"]);
    // Before one of two entries and like both others but for the extension number.
    let mut pages = root(&[0, 1, 2], &[File("A", 1), Stamp(0xC1), File("A", 2)]);
    pages.alter(0, 15 + 7 + 4, &[2]);
    demand_files(&Button::from(&pages), &["A", "A"]);
}

/// The bytes of a stamp after its first: like those of entries that are there, of others with every fault, of a directory, of a marker, and any.
const OTHER_BYTES: [[u8; 6]; 12] = [
    *b"   \x01\x01\x01",
    *b"   \x01\x02\x01",
    *b"   \x81\x01\x01",
    *b"   \x7F\x01\x00",
    *b"   \xFF\x00\x09",
    *b"BCD\x64\x03\x01",
    *b"BCD\x01\x63\x01",
    *b" b \x01\x02\xFF",
    [0; 6],
    [0xFF; 6],
    *b"\x00\x80\x03\x00\x00\x00",
    *b"ROOT\x00\x00",
];

/// A stamp's first byte is above 127, whatever follows: the image is accepted, and edits leave every byte of it alone.
#[test]
fn other_bytes_of_a_stamp_are_unchecked() {
    for first in [0x80, 0xAA, 0xAB, b'A' | 0x80, b'B' | 0x80, 0xFF] {
        for other in OTHER_BYTES {
            let stamp = [&[first], &other[..]].concat();
            let mut pages = root(&[0, 1, 2], &[Stamp(0x80), File("A", 1), File("B", 2)]);
            let mut button = Button::from(pages.alter(0, 8, &stamp));
            demand_files(&button, &["A", "B"]);
            assert_eq!(button.check().1[..4], [(1, 0), (3, 0), (4, 0), FREE]);
            for path in [b"A   \x01", b"B   \x01"] {
                assert_eq!(button.read(path), (0, path[..1].to_vec()));
                assert_eq!(button.put(path, &[1; 30]).0, answer(0, 0));
                let told = button.careful_put(path, &[2; 30], u32::MAX).0;
                assert_eq!((told.number, told.left), (0, 0));
                assert_eq!(button.page(0)[8..15], stamp);
            }
            assert_eq!(button.delete(b"B   \x01").0, answer(0, 0));
            assert_eq!(button.page(0)[8..15], stamp);
            assert_eq!(button.delete(b"A   \x01").0, answer(0, 0));
            demand_slots(&button, 0, &[]);
        }
    }
}

/// An entry between two with stamps: each delete takes away the stamps of its own entry, and no others.
#[test]
fn deleted_file_loses_no_stamps_but_its_own() {
    let full = [
        File("A", 1),
        Stamp(0x81),
        File("B", 2),
        Stamp(0x82),
        File("C", 3),
    ];
    let mut wide = Pages::new(64, 16);
    let body = [wide.local_control(&[0, 1, 2, 3]), slots(&wide, &full)];
    wide.packet(0, &body.concat(), 0);
    write_files(&mut wide, &full);
    for (path, left) in [
        (b"A   \x01", vec![1, 2, 3, 4]),
        (b"B   \x01", vec![0, 3, 4]),
        (b"C   \x01", vec![0, 1, 2]),
    ] {
        let left: Vec<Slot> = left.into_iter().map(|slot| full[slot]).collect();
        let mut plain = Button::from(&wide);
        assert_eq!(plain.delete(path).0, answer(0, 0));
        demand_slots(&plain, 0, &left);
        let mut careful = Button::from(&wide);
        assert_eq!(careful.careful_delete(path, 2).0, writes(2, false));
        assert_eq!(careful, plain);
    }
}

/// A new entry goes behind every entry of its page, and so never between a stamp and its entry.
#[test]
fn new_entry_goes_behind_the_last_entry() {
    for of in [
        &[Stamp(0x80), File("A", 1)][..],
        &[File("A", 1), File("B", 2)],
    ] {
        let mut button = Button::from(&root(&[0, 1, 2][..1 + files_of(of)], of));
        let start = 1 + files_of(of);
        assert_eq!(button.put(b"NEW \x01", b"NEW").0, answer(0, 0));
        demand_slots(&button, 0, &[of, &[File("NEW", start)]].concat());
    }
}

/// The number of files among slots.
fn files_of(of: &[Slot]) -> usize {
    of.iter().filter(|slot| matches!(slot, File(..))).count()
}

#[test]
fn replaced_file_keeps_its_stamps_and_deleted_one_loses_them() {
    let of = [Stamp(0xC0), File("A", 1), File("B", 2)];
    let button = Button::from(&root(&[0, 1, 2], &of));
    let mut replaced = button.clone();
    assert_eq!(replaced.put(b"A   \x01", &[7; 29]).0, answer(0, 0));
    let entry = replaced.pages().entry("A", 1, 1, 2);
    assert_eq!(
        replaced.pages().body(0)[7..14],
        slots(&button.pages(), &of[..1])
    );
    assert_eq!(replaced.pages().body(0)[14..21], entry);
    demand_files(&replaced, &["A", "B"]);
    let mut first = button.clone();
    assert_eq!(first.delete(b"A   \x01").0, answer(0, 0));
    demand_slots(&first, 0, &[File("B", 2)]);
    demand_files(&first, &["B"]);
    let mut second = button.clone();
    assert_eq!(second.delete(b"B   \x01").0, answer(0, 0));
    demand_slots(&second, 0, &[Stamp(0xC0), File("A", 1)]);
    demand_files(&second, &["A"]);
    // Made again, it has no stamps.
    assert_eq!(first.put(b"A   \x01", b"A").0, answer(0, 0));
    demand_slots(&first, 0, &[File("B", 2), File("A", 1)]);
}

/// Two stamps and their entry fill the root's first page: a new entry makes the directory grow.
#[test]
fn page_full_because_of_stamps_has_no_space() {
    let of = [Stamp(0x80), Stamp(0x81), File("A", 1)];
    let mut button = Button::from(&root(&[0, 1], &of));
    let (told, owners) = button.put(b"NEW \x01", b"NEW");
    assert_eq!(told, answer(0, 0));
    assert_eq!(chain_of(&owners, 1), [0, 2]);
    assert_eq!(chain_of(&owners, 4), [3]);
    demand_slots(&button, 0, &of);
    demand_slots(&button, 2, &[File("NEW", 3)]);
    // Once the stamps have gone with their entry there is space in the first page.
    assert_eq!(button.delete(b"A   \x01").0, answer(0, 0));
    assert_eq!(button.put(b"C   \x01", b"C").0, answer(0, 0));
    demand_slots(&button, 0, &[File("C", 1)]);
    demand_slots(&button, 2, &[File("NEW", 3)]);
}

/// A second page of three stamps and one entry is full; without the entry it is empty and stays.
#[test]
fn page_of_stamps_and_one_entry_only() {
    let full = [File("A", 1), File("B", 2), File("C", 3)];
    let stamped = [Stamp(0xFF), Stamp(0xAA), Stamp(0xAB), File("D", 4)];
    let pages = two_pages(&[0, 1, 2, 3, 4, 5], &full, &stamped);
    let button = Button::from(&pages);
    demand_files(&button, &["A", "B", "C", "D"]);
    let mut grown = button.clone();
    let (told, owners) = grown.put(b"E   \x01", b"E");
    assert_eq!((told, chain_of(&owners, 1)), (answer(0, 0), vec![0, 5, 6]));
    demand_slots(&grown, 5, &stamped);
    let mut emptied = button.clone();
    let (told, owners) = emptied.delete(b"D   \x01");
    assert_eq!((told, chain_of(&owners, 1)), (answer(0, 0), vec![0, 5]));
    demand_slots(&emptied, 5, &[]);
    demand_files(&emptied, &["A", "B", "C"]);
}

/// Stamps count as slots when there is just the room for a file, or for the file and a page of its directory.
#[test]
fn room_counts_slots() {
    let of = [Stamp(0x80), Stamp(0x81), File("A", 1)];
    let button = Button::from(&root(&[0, 1], &of));
    for (length, number) in [(13 * 28, 0), (13 * 28 + 1, 17), (14 * 28, 17)] {
        let bytes = vec![5; length];
        assert_eq!(button.clone().put(b"N   \x01", &bytes).0.number, number);
        let careful = button.clone().careful_put(b"N   \x01", &bytes, u32::MAX).0;
        assert_eq!(careful.number, number);
    }
    let space = Button::from(&root(&[0, 1], &of[1..]));
    for (length, number) in [(14 * 28, 0), (14 * 28 + 1, 17)] {
        assert_eq!(
            space.clone().put(b"N   \x01", &vec![5; length]).0.number,
            number
        );
    }
}

/// A careful delete of a file with stamps: page 0 with the mark of its page, then page 0 without it.
#[test]
fn careful_delete_removes_entry_and_stamps_by_one_write() {
    let of = [Stamp(0x80), Stamp(0x81), File("A", 1)];
    let button = Button::from(&root(&[0, 1], &of));
    let mut stopped = button.clone();
    assert_eq!(stopped.careful_delete(b"A   \x01", 1).0, writes(1, true));
    demand_slots(&stopped, 0, &[]);
    assert_eq!(stopped.verdict(), answer(13, 1));
    assert_eq!(stopped.mend().0, mended(1));
    let mut whole = button.clone();
    assert_eq!(whole.careful_delete(b"A   \x01", 9).0, writes(2, false));
    assert_eq!(whole, stopped);
}

/// With page numbers of two bytes, two slots in a first page and three in another.
#[test]
fn stamps_in_a_subdirectory_with_numbers_of_two_bytes() {
    let mut pages = Pages::new(32, 300);
    let control = pages.file_control(1, 2);
    let stamp = [0xABu8, 0, 0, 0, 0, 0, 0, 0, 0];
    let below = pages.entry("SUB", 0x7F, 9, 0);
    pages.packet(0, &[control, stamp.to_vec(), below].concat(), 0);
    let mut bits = vec![0u8; 38];
    bits[0] = 0x07;
    bits[1] = 0x06;
    pages.packet(1, &bits[..27], 2).packet(2, &bits[27..], 0);
    let sub = pages.sub_control("ROOT", 0);
    let file = pages.entry("F", 3, 10, 1);
    pages.packet(9, &[sub, stamp.to_vec(), file].concat(), 0);
    pages.packet(10, b"bytes", 0);
    let mut button = Button::from(&pages);
    let (totals, _) = button.check();
    assert_eq!((totals.used, totals.files, totals.directories), (5, 1, 1));
    assert_eq!(button.read(&path(&["SUB"], "F", 3)), (0, b"bytes".to_vec()));
    let (told, owners) = button.put(&path(&["SUB"], "G", 3), b"more");
    assert_eq!((told, chain_of(&owners, 3)), (answer(0, 0), vec![9, 3]));
    assert_eq!(
        button.put(&path(&["SUB"], "F", 3), &[1; 60]).0,
        answer(0, 0)
    );
    assert_eq!(button.pages().body(9)[8..17], stamp);
    assert_eq!(button.delete(&path(&["SUB"], "F", 3)).0, answer(0, 0));
    assert_eq!(button.pages().body(9).len(), 8);
    assert_eq!(button.pages().body(0)[8..17], stamp);
}

/// Whether some entry of an image has stamps.
fn has_stamps(built: &Built) -> bool {
    built.entries.iter().any(|entry| entry.stamps > 0)
}

/// The bytes of an entry's stamps.
fn stamp_bytes(button: &Button, entry: &BuiltEntry) -> Vec<u8> {
    let length = button.pages().geometry.entry_length();
    button.page(entry.page)[entry.offset - entry.stamps * length..entry.offset].to_vec()
}

/// The file of a path in a built image.
fn file_of<'a>(built: &'a Built, path: &[u8]) -> Option<&'a BuiltEntry> {
    let is_file = |entry: &&BuiltEntry| entry.path == path && entry.listing.extension != 127;
    built.entries.iter().find(is_file)
}

/// Demands of check, list, read and the owner table what the plan gives.
fn demand_planned(button: &Button, built: &Built) {
    let (totals, owners) = button.check();
    assert_eq!((totals, owners), (built.totals, records(&built.owners)));
    for (position, entry) in built.entries.iter().enumerate() {
        let (listing, owners) = button.list(position as u32);
        assert_eq!(listing, entry.listing);
        assert_eq!(owners, records(&built.owners));
        if built.chains[entry.chain].of == ChainOf::File {
            assert_eq!(button.read(&entry.path), (0, entry.bytes.clone()));
        }
    }
    assert_eq!(button.list(built.entries.len() as u32).0.number, 15);
}

/// What the sizes of an image are, and where its bitmap is.
fn size_labels(built: &Built) -> [&'static str; 3] {
    let length = match built.page_length {
        32 => "pages of 32 bytes",
        33..=63 => "pages of 33 to 63 bytes",
        64..=255 => "pages of 64 to 255 bytes",
        _ => "pages of 256 bytes",
    };
    let numbers = match built.page_count {
        ..=256 => "one-byte page numbers",
        _ => "two-byte page numbers",
    };
    let bitmap = match built.local_bitmap {
        true => "local bitmap",
        false => "bitmap file",
    };
    [length, numbers, bitmap]
}

/// The labels of sizes and bitmaps.
const SIZES: [&str; 8] = [
    "pages of 32 bytes",
    "pages of 33 to 63 bytes",
    "pages of 64 to 255 bytes",
    "pages of 256 bytes",
    "one-byte page numbers",
    "two-byte page numbers",
    "local bitmap",
    "bitmap file",
];

/// Counts what an image with stamps is like; one without them is not counted.
fn count_image(built: &Built, tally: &mut Tally) {
    if !has_stamps(built) {
        return;
    }
    tally.add("images with stamps");
    let mut labels = stamp_features(built);
    labels.extend(size_labels(built));
    labels.sort_unstable();
    labels.dedup();
    for label in labels {
        tally.add(label);
    }
}

#[test]
fn images_with_stamps_are_checked_listed_and_read_as_planned() {
    let mut tally = Tally::default();
    run_seeds(READS..READS + 1_200, |_, rng| {
        let built = stamped_plan(rng).build();
        demand_planned(&Button::from(&built), &built);
        count_image(&built, &mut tally);
        for entry in &built.entries {
            let kind = match built.chains[entry.chain].of {
                ChainOf::File => "file",
                _ => "directory",
            };
            tally.add(format!("{kind} with {}", stamp_count(entry.stamps)));
        }
    });
    tally.print();
    tally.demand(600, &["images with stamps"]);
    tally.demand(50, &STAMPS);
    tally.demand(40, &SIZES);
    for kind in ["file", "directory"] {
        let labels = STAMP_COUNTS.map(|stamps| format!("{kind} with {stamps}"));
        tally.demand(50, &labels.each_ref().map(String::as_str));
    }
}

/// What a put meets.
fn put_label(plan: &ImagePlan, built: &Built, path: &[u8]) -> &'static str {
    let Ok(room) = Room::of(plan, path) else {
        return "put refused for its path";
    };
    let old = file_of(built, path);
    let entries = plan_entries(plan, path);
    match (old.map(|entry| entry.stamps), room.space) {
        (Some(0), _) => "file without stamps replaced",
        (Some(_), _) => "file with stamps replaced",
        (None, Some(_)) => "new file in a page with space",
        (None, None) if entries < all_slots(&room) => "new file, pages full because of stamps",
        (None, None) => "new file, pages full of entries",
    }
}

/// The plain entries of a path's directory.
fn plan_entries(plan: &ImagePlan, path: &[u8]) -> usize {
    let names = &path[..path.len() - 5];
    let mut all = directories(plan).into_iter();
    let directory = all.find(|(other, _)| other == names);
    directory.map_or(0, |(_, directory)| directory.items.len())
}

/// The slots that a directory's pages have.
fn all_slots(room: &Room) -> usize {
    let later = (room.counts.len() - 1) * room.geometry.continuation_entries();
    room.geometry.first_page_entries() + later
}

/// The path of a new file, mostly in a directory whose pages have no space, if there is one.
fn new_path(plan: &ImagePlan, rng: &mut Rng) -> Vec<u8> {
    let geometry = geometry(plan.page_length, plan.page_count);
    let all = directories(plan);
    let is_full = |directory: &DirectoryPlan| page_with_space(&geometry, directory).is_none();
    let full: Vec<_> = all.iter().filter(|(_, one)| is_full(one)).collect();
    let any: Vec<_> = all.iter().collect();
    let from = if full.is_empty() || rng.chance(30) {
        any
    } else {
        full
    };
    let names = rng.pick(&from).map(|(names, _)| names.clone());
    path_in(&names.unwrap_or_default(), rng)
}

/// A path to put to: mostly of a file that is there, or of a new one in some directory.
fn put_path(plan: &ImagePlan, built: &Built, rng: &mut Rng) -> Vec<u8> {
    let all = files(built);
    match (rng.below(5), rng.pick(&all)) {
        (0 | 1, Some(file)) => file.path.clone(),
        (2 | 3, _) => new_path(plan, rng),
        _ => labelled_path(plan, built, rng).1,
    }
}

/// Puts one after the other leave the planned images; a replaced file has its stamps as before.
#[test]
fn puts_leave_the_planned_images() {
    let mut tally = Tally::default();
    run_seeds(PUTS..PUTS + 1_500, |_, rng| {
        let mut plan = stamped_plan(rng);
        let mut button = Button::from(&plan.build());
        count_image(&plan.build(), &mut tally);
        for _ in 0..4 {
            let built = plan.build();
            let path = put_path(&plan, &built, rng);
            let bytes = random_bytes(&plan, &path, rng);
            let before = button.clone();
            let (told, _) = button.put(&path, &bytes);
            tally.add(put_label(&plan, &built, &path));
            tally.add(format!("put {}", told.number));
            match plan_with(&plan, &path, &bytes) {
                Ok(next) => {
                    assert_eq!(told, answer(0, 0));
                    demand_put(&before, &button, &built, &next.build(), &path);
                    plan = next;
                }
                Err(number) => assert_eq!(told, answer(number, 0)),
            }
        }
        demand_planned(&button, &plan.build());
    });
    tally.print();
    tally.demand(
        40,
        &[
            "file without stamps replaced",
            "file with stamps replaced",
            "new file in a page with space",
            "new file, pages full because of stamps",
            "put 0",
            "put 17",
        ],
    );
    tally.demand(40, &STAMPS);
    tally.demand(40, &SIZES);
}

/// Demands the image after a put, and the stamps of its file: those it had, or none.
fn demand_put(before: &Button, after: &Button, old: &Built, new: &Built, path: &[u8]) {
    assert!(
        after.image == overlaid(before, new),
        "known by construction"
    );
    let file = file_of(new, path).expect("the file of the put");
    let had = file_of(old, path).map(|entry| stamp_bytes(before, entry));
    assert_eq!(stamp_bytes(after, file), had.unwrap_or_default(), "stamps");
}

/// Every file that may be deleted is, one after the other.
#[test]
fn deletes_leave_the_planned_images() {
    let mut tally = Tally::default();
    run_seeds(DELETES..DELETES + 800, |_, rng| {
        let mut plan = stamped_plan(rng);
        let mut button = Button::from(&plan.build());
        let built = plan.build();
        count_image(&built, &mut tally);
        let all = files(&built).into_iter();
        let mut paths: Vec<Vec<u8>> = all.map(|file| file.path.clone()).collect();
        rng.shuffle(&mut paths);
        for path in paths {
            let built = plan.build();
            let file = file_of(&built, &path).expect("a file of the plan");
            let before = button.clone();
            let (told, _) = button.delete(&path);
            if is_hidden(&plan, &path) {
                assert_eq!(told, answer(22, 0));
                continue;
            }
            if file.listing.attribute == 1 {
                assert_eq!(told, answer(16, 0));
                continue;
            }
            tally.add(format!("file with {} deleted", stamp_count(file.stamps)));
            let mut in_page = built.entries.iter().filter(|entry| entry.page == file.page);
            if file.stamps > 0 && in_page.nth(1).is_none() {
                tally.add("file deleted whose page had stamps and no other entry");
            }
            assert_eq!(told, answer(0, 0));
            plan = plan_without(&plan, &path).expect("a file of the plan");
            assert!(button.image == overlaid(&before, &plan.build()));
        }
        demand_planned(&button, &plan.build());
    });
    tally.print();
    let labels = STAMP_COUNTS.map(|stamps| format!("file with {stamps} deleted"));
    tally.demand(50, &labels.each_ref().map(String::as_str));
    tally.demand(
        100,
        &["file deleted whose page had stamps and no other entry"],
    );
    tally.demand(40, &STAMPS);
    tally.demand(40, &SIZES);
}

/// A careful edit of an image with stamps.
fn random_edit(plan: &ImagePlan, built: &Built, rng: &mut Rng) -> (Vec<u8>, Edit) {
    let path = put_path(plan, built, rng);
    if rng.chance(40) {
        return (path, Edit::Delete);
    }
    let length = rng.below(2 * built.page_length as usize);
    (path, Edit::Put(rng.bytes(length)))
}

/// Careful puts and deletes, stopped after every number of writes, mended and read.
#[test]
fn careful_edits_are_stopped_after_every_write() {
    let mut tally = Tally::default();
    run_seeds(CAREFUL..CAREFUL + 3_000, |_, rng| {
        let plan = stamped_plan(rng);
        let built = plan.build();
        let button = Button::from(&built);
        let (path, edit) = random_edit(&plan, &built, rng);
        let stamps = file_of(&built, &path).map(|entry| entry.stamps.min(1));
        let kind = match (&edit, stamps) {
            (Edit::Put(_), _) => put_label(&plan, &built, &path),
            (Edit::Delete, Some(0)) => "file without stamps deleted",
            (Edit::Delete, Some(_)) => "file with stamps deleted",
            (Edit::Delete, None) => "delete refused",
        };
        match Careful::new(button.clone(), &plan, &path, edit.clone()) {
            Ok(careful) => {
                careful.every_stop(rng);
                tally.add(kind);
                tally.add_times("stopping points", careful.total() as u32 + 3);
                count_image(&built, &mut tally);
            }
            Err(number) => {
                let told = careful_edit(&mut button.clone(), &path, &edit, 3, rng);
                assert_eq!(told, no_writes(number, 0));
            }
        }
    });
    tally.print();
    tally.demand(
        50,
        &[
            "file with stamps replaced",
            "new file in a page with space",
            "new file, pages full because of stamps",
            "file without stamps deleted",
            "file with stamps deleted",
        ],
    );
    tally.demand(20, &STAMPS);
    tally.demand(20, &SIZES);
}

/// Marks that no chain has are cleared, and just these; stamps own no page.
#[test]
fn marks_are_mended_in_images_with_stamps() {
    let mut tally = Tally::default();
    run_seeds(MENDS..MENDS + 1_000, |_, rng| {
        let planned = Planned::new(stamped_plan(rng));
        count_image(&planned.built, &mut tally);
        let button = Button::from(&planned.built);
        let used = planned.used();
        let free: Vec<usize> = (0..used.len()).filter(|&page| !used[page]).collect();
        let marks: Vec<usize> = free.into_iter().filter(|_| rng.chance(30)).collect();
        let mut marked = with_flipped_bits(&button, &planned, &marks);
        let (told, owners) = marked.mend();
        assert_eq!(told, mended(marks.len() as u32));
        assert_eq!(owners, records(&planned.built.owners));
        assert!(marked == button);
    });
    tally.print();
    tally.demand(40, &STAMPS);
    tally.demand(40, &SIZES);
}

/// The image with one to three stamps more at the end of a directory page, as far as it has space; none if it has none.
fn with_loose_stamps(button: &Button, page: usize, rng: &mut Rng) -> Option<Button> {
    let mut pages = button.pages();
    let (geometry, pointer) = (pages.geometry, pages.pointer(page));
    let mut body = pages.body(page);
    let space = (geometry.max_data() - body.len()) / geometry.entry_length();
    for _ in 0..rng.between(1, 3).min(space) {
        body.extend(random_stamp(&geometry, rng));
    }
    let loose = Button::from(pages.packet(page, &body, pointer));
    (space > 0).then_some(loose)
}

/// The image with the last entry of a directory page made a stamp, and the stamps before it without an entry; none if the page has no entry.
fn with_last_made_stamp(
    button: &Button,
    built: &Built,
    page: usize,
    rng: &mut Rng,
) -> Option<Button> {
    let in_page = built.entries.iter().filter(|entry| entry.page == page);
    let last = in_page.max_by_key(|entry| entry.offset)?;
    let first = rng.between(128, 255) as u8;
    Some(Button::from(button.pages().alter(
        page,
        last.offset,
        &[first],
    )))
}

/// What a directory page is like, for stamps without their entry at its end.
fn page_label(built: &Built, directory: &BuiltChain, place: usize) -> &'static str {
    let has_entries = |page: &usize| built.entries.iter().any(|entry| entry.page == *page);
    match (directory.of, directory.pages.get(place + 1)) {
        (_, Some(next)) if has_entries(next) => "before a page with entries",
        (_, Some(_)) => "before a page without entries",
        (ChainOf::Root, None) => "in the root's last page",
        (_, None) => "in the last page of a subdirectory",
    }
}

/// Stamps without their entry at the end of each page of each directory in turn are 10 at that page, whether or not the next page has entries.
#[test]
fn loose_stamps_in_each_directory_page_are_10_there() {
    let mut tally = Tally::default();
    run_seeds(LOOSE..LOOSE + 300, |_, rng| {
        let built = stamped_plan(rng).build();
        let button = Button::from(&built);
        for chain in &built.chains {
            if !matches!(chain.of, ChainOf::Root | ChainOf::Directory) {
                continue;
            }
            for (place, &page) in chain.pages.iter().enumerate() {
                let more = with_loose_stamps(&button, page, rng);
                let made = with_last_made_stamp(&button, &built, page, rng);
                for loose in [more, made].into_iter().flatten() {
                    assert_eq!(loose.verdict(), answer(10, page as u32));
                    tally.add(page_label(&built, chain, place));
                }
            }
        }
    });
    tally.print();
    let labels = [
        "before a page with entries",
        "before a page without entries",
        "in the root's last page",
        "in the last page of a subdirectory",
    ];
    tally.demand(50, &labels);
}

/// All calls agree on an image, whatever it is.
fn demand_agreed(button: &Button, rng: &mut Rng) -> u32 {
    let verdict = button.verdict();
    if verdict.number != 0 {
        button.refused_by_all(verdict.number, verdict.page);
    } else {
        let all = button.list_all();
        for listing in all.iter().filter(|listing| listing.extension != 127) {
            let mut path = listing.name.to_le_bytes().to_vec();
            path.push(listing.extension as u8);
            button.read(&path);
            button.clone().put(&path, &[3; 40]);
            button.clone().delete(&path);
            button
                .clone()
                .careful_put(&path, &[4; 40], rng.below(9) as u32);
            button.clone().careful_delete(&path, rng.below(4) as u32);
        }
        button.clone().put(b"NEWF\x05", b"new");
    }
    button.clone().mend();
    verdict.number
}

/// Stamps at a page's end, alone on a page, with a first byte below 128, and bytes changed at random.
#[test]
fn damaged_images_with_stamps_get_one_answer() {
    let mut tally = Tally::default();
    run_seeds(FAULTS..FAULTS + 500, |_, rng| {
        let built = stamped_plan(rng).build();
        let with = |image: Vec<u8>| Button {
            image,
            ..Button::from(&built)
        };
        for number in [9, 10, 11, 8] {
            if let Some((image, expected)) = with_fault(&built, number, rng) {
                assert_eq!(with(image).verdict(), expected);
                tally.add(format!("fault {number}"));
            }
        }
        let other = rng.between(2, 13) as u32;
        if let Some(image) = with_two_faults(&built, [10, other], rng) {
            with(image).verdict();
        }
        if let Some(image) = with_stamps_made_plain(&built, rng) {
            let number = demand_agreed(&with(image), rng);
            tally.add(format!("stamp made plain: {number}"));
        }
        let number = demand_agreed(&with(with_random_changes(&built, rng)), rng);
        tally.add(format!("changed: {number}"));
        assert!(built.entries.is_empty() || demand_agreed(&with(built.image.clone()), rng) == 0);
        if has_stamps(&built) {
            tally.add("images with stamps");
        }
    });
    tally.print();
    tally.demand(200, &["fault 9", "fault 10", "images with stamps"]);
    tally.demand(50, &["stamp made plain: 9", "changed: 0"]);
}
