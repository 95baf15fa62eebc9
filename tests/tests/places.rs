//! The places of pages in their chains, as the owner table tells them after each call: long chains, new ones, replaced ones, a directory that grows,
//! careful edits that are stopped, and mends.
//!
//! Programs: the library and the second program. Each call is made by both; every answer and every lent byte is compared, and the tables are known.
//! The archive is made by `tools/build`.

use common::generators::{deep_image, large_image, largest_image, random_sizes, stamped_plan};
use common::{
    agreed, all_free, answer, chain_of, mended, records, run_seeds, table_bytes, writes, Button,
    Record, FREE,
};
use referee::builder::pages::{path, Pages};
use referee::builder::plan::Built;
use referee::builder::random::random_image;

/// A file of the root.
fn file(name: &str) -> Vec<u8> {
    path(&[], name, 1)
}

/// The pages from one to another, that one not counted.
fn pages(from: usize, to: usize) -> Vec<usize> {
    (from..to).collect()
}

/// The button with a file put, and its table.
fn with_file(mut button: Button, path: &[u8], bytes: &[u8]) -> (Button, Vec<Record>) {
    let (done, owners) = button.put(path, bytes);
    assert_eq!(done, answer(0, 0));
    (button, owners)
}

/// Files of more than 255, 256, 512 and 65,000 pages: each page's place is its distance from the first.
#[test]
fn places_of_long_chains_are_counted_in_two_bytes() {
    for (page_length, page_count, file_pages) in [
        (32, 256, 250),
        (32, 300, 255),
        (32, 300, 256),
        (32, 300, 257),
        (33, 1_000, 513),
        (32, 5_000, 4_097),
        (32, 65_535, 65_000),
    ] {
        let button = Button::formatted(page_length, page_count, false);
        let first = button.check().0.used as usize;
        let data = button.pages().geometry.max_data();
        let bytes = vec![0x4C; data * file_pages];
        let (button, owners) = with_file(button, &file("LONG"), &bytes);
        assert_eq!(chain_of(&owners, 3), pages(first, first + file_pages));
        assert_eq!(chain_of(&owners, 2), pages(1, first));
        let last = first + file_pages - 1;
        assert_eq!(owners[last], (3, file_pages as u16 - 1));
        assert_eq!(button.check().1, owners);
        assert_eq!(button.list(0).1, owners);
        assert_eq!(button.read_into(&file("LONG"), &mut []).1, owners);
    }
}

/// The bytes themselves: the file's place 256 and 257 in the third and fourth byte, low byte first.
#[test]
fn a_record_is_owner_then_place_low_byte_first() {
    let button = Button::formatted(32, 300, false);
    let (button, _) = with_file(button, &file("A"), &[1; 27 * 258]);
    let mut table = vec![0xEE; 4 * 300 + 3];
    let told = agreed::check(32, 300, &button.image, &mut table);
    assert_eq!((told.number, told.used), (0, 3 + 258));
    assert_eq!(
        table[..16],
        [1, 0, 0, 0, 2, 0, 0, 0, 2, 0, 1, 0, 3, 0, 0, 0]
    );
    assert_eq!(table[4 * 258..4 * 260], [3, 0, 0xFF, 0, 3, 0, 0, 1]);
    assert_eq!(table[4 * 260..4 * 262], [3, 0, 1, 1, 0, 0, 0, 0]);
    assert_eq!(table[4 * 299..], [0, 0, 0, 0, 0xEE, 0xEE, 0xEE]);
}

/// Owners above 255 with places of their own: 300 files of two pages each.
#[test]
fn owners_above_255_have_places_of_their_own() {
    let mut button = Button::formatted(64, 1_000, false);
    for number in 0..300 {
        let name = format!("F{number}");
        assert_eq!(button.put(&file(&name), &[7; 60]).0, answer(0, 0));
    }
    let owners = button.check().1;
    for (position, listing) in button.list_all().iter().enumerate() {
        let start = listing.start as usize;
        let chain = chain_of(&owners, 3 + position as u16);
        assert_eq!((chain.len(), chain[0]), (2, start));
        assert_eq!(owners[start], (3 + position as u16, 0));
    }
    assert_eq!(owners[button.list(299).0.start as usize].0, 302);
}

/// A chain whose pages lie in any order, and one that goes down: a place follows the pointers, not the page numbers.
#[test]
fn places_follow_the_pointers() {
    let mut pages = Pages::new(32, 16);
    let mut root = pages.local_control(&[0, 2, 3, 5, 8, 9, 15]);
    root.extend(pages.entry("A", 1, 9, 3));
    root.extend(pages.entry("B", 1, 5, 3));
    pages.packet(0, &root, 0);
    pages
        .packet(9, b"a", 2)
        .packet(2, b"", 15)
        .packet(15, b"a", 0);
    pages
        .packet(5, b"b", 8)
        .packet(8, b"b", 3)
        .packet(3, b"", 0);
    let owners = Button::from(&pages).check().1;
    assert_eq!(chain_of(&owners, 3), [9, 2, 15]);
    assert_eq!(chain_of(&owners, 4), [5, 8, 3]);
    assert_eq!(owners[..4], [(1, 0), FREE, (3, 1), (4, 2)]);
}

/// A new file's chain starts at 0 wherever its pages are; the places of all others stay.
#[test]
fn a_new_file_has_places_from_0() {
    let (button, _) = with_file(Button::formatted(32, 16, true), &file("A"), &[1; 60]);
    let (mut button, owners) = with_file(button, &file("B"), &[2; 30]);
    let a = [(3, 0), (3, 1), (3, 2)];
    assert_eq!(owners[1..4], a);
    assert_eq!(owners[4..7], [(4, 0), (4, 1), FREE]);
    assert_eq!(button.delete(&file("A")).0, answer(0, 0));
    // B is the first entry now, and keeps its places; A's pages are free.
    let owners = button.check().1;
    assert_eq!(owners[..4], [(1, 0), FREE, FREE, FREE]);
    assert_eq!(owners[4..7], [(3, 0), (3, 1), FREE]);
    let (_, owners) = with_file(button, &file("C"), &[3; 28 * 4]);
    assert_eq!(chain_of(&owners, 4), [1, 2, 3, 6]);
}

/// A replaced file: shorter, longer, and on pages that another file's lie between.
#[test]
fn a_replaced_file_has_the_places_of_its_new_chain() {
    let (button, _) = with_file(Button::formatted(32, 16, true), &file("A"), &[1; 60]);
    let (button, _) = with_file(button, &file("B"), &[2; 1]);
    let (button, owners) = with_file(button, &file("A"), &[3; 28 * 5]);
    assert_eq!(chain_of(&owners, 3), [1, 2, 3, 5, 6]);
    assert_eq!(owners[4], (4, 0));
    let (button, owners) = with_file(button, &file("A"), b"");
    assert_eq!(
        owners[..7],
        [(1, 0), (3, 0), FREE, FREE, (4, 0), FREE, FREE]
    );
    let (_, owners) = with_file(button, &file("B"), &[4; 28 * 3]);
    assert_eq!(chain_of(&owners, 4), [2, 3, 4]);
}

/// A put that is refused leaves the records of the image as it stands.
#[test]
fn a_refused_edit_leaves_the_places_as_they_are() {
    let (mut button, owners) = with_file(Button::formatted(32, 16, true), &file("A"), &[1; 60]);
    assert_eq!(
        button.put(&file("A"), &[0; 421]),
        (answer(17, 0), owners.clone())
    );
    assert_eq!(button.put(b"bad", b""), (answer(14, 0), owners.clone()));
    assert_eq!(button.delete(&file("B")), (answer(15, 0), owners));
}

/// The root grows by its second and third page: each gets the next place, and so does a subdirectory's new page.
#[test]
fn a_page_that_joins_a_directory_has_the_next_place() {
    let mut button = Button::formatted(32, 32, true);
    for number in 0..8 {
        let name = format!("F{number}");
        let (next, owners) = with_file(button, &file(&name), b"x");
        let root = match number {
            0..=2 => vec![0],
            3..=6 => vec![0, 4],
            _ => vec![0, 4, 9],
        };
        assert_eq!(chain_of(&owners, 1), root, "file {number}");
        button = next;
    }
}

/// A subdirectory D on page 1 with three entries, its only page full.
fn full_directory() -> Button {
    let mut pages = Pages::new(32, 16);
    let mut root = pages.local_control(&[0, 1, 2, 3, 4]);
    root.extend(pages.entry("D", 127, 1, 0));
    let mut sub = pages.sub_control("ROOT", 0);
    for (name, page) in [("A", 2), ("B", 3), ("C", 4)] {
        sub.extend(pages.entry(name, 1, page, 1));
        pages.packet(page, b"", 0);
    }
    pages.packet(0, &root, 0).packet(1, &sub, 0);
    Button::from(&pages)
}

/// The new page has the owner of the directory's entry and its place in the directory's own chain, plain and careful.
#[test]
fn a_page_that_joins_a_subdirectory_has_the_next_place_there() {
    let new = path(&["D"], "NEW", 1);
    let known = [
        (1, 0),
        (3, 0),
        (4, 0),
        (5, 0),
        (6, 0),
        (3, 1),
        (7, 0),
        (7, 1),
    ];
    let (plain, owners) = with_file(full_directory(), &new, &[1; 29]);
    assert_eq!(owners[..8], known);
    assert!(all_free(&owners[8..]));
    let mut careful = full_directory();
    let (told, owners) = careful.careful_put(&new, &[1; 29], u32::MAX);
    assert_eq!((told.number, told.left), (0, 0));
    assert_eq!(owners[..8], known);
    assert_eq!(careful, plain);
}

/// Each stopping point of a careful put into a full directory: the old records before the first write, none while marks stand alone, the new ones in
/// the end. A mend gives the old ones back until the visible write is made.
#[test]
fn a_stopped_careful_put_has_no_records_until_it_is_mended() {
    let new = path(&["D"], "NEW", 1);
    let old = full_directory().check().1;
    let (_, done) = with_file(full_directory(), &new, &[1; 29]);
    // Marks in page 0, two pages of the file, the directory's new page, the directory's first page.
    for allowed in 0..=5 {
        let mut button = full_directory();
        let (told, owners) = button.careful_put(&new, &[1; 29], allowed);
        assert_eq!(told, writes(allowed, allowed < 5));
        let is_marked = (1..5).contains(&allowed);
        match allowed {
            0 => assert_eq!(owners, old),
            5 => assert_eq!(owners, done),
            _ => assert!(all_free(&owners), "{allowed} allowed"),
        }
        let (told, owners) = button.mend();
        assert_eq!(told, mended(if is_marked { 3 } else { 0 }));
        let held = if allowed == 5 { &done } else { &old };
        assert_eq!(&owners, held, "{allowed} allowed");
    }
}

/// A careful replacement: the new chain's places from the visible write on, though the old pages are marked until the last.
#[test]
fn a_careful_replacement_has_the_places_of_the_new_chain_once_mended() {
    let (button, old) = with_file(Button::formatted(32, 16, true), &file("A"), &[1; 60]);
    let mut whole = button.clone();
    let (told, done) = whole.careful_put(&file("A"), &[2; 30], u32::MAX);
    assert_eq!(told, writes(5, false));
    assert_eq!(chain_of(&done, 3), [4, 5]);
    assert!(all_free(&done[1..4]));
    for allowed in 1..5 {
        let mut stopped = button.clone();
        let (told, owners) = stopped.careful_put(&file("A"), &[2; 30], allowed);
        assert_eq!(told, writes(allowed, true));
        assert!(all_free(&owners), "{allowed} allowed");
        let held = if allowed < 4 { &old } else { &done };
        assert_eq!(&stopped.mend().1, held, "{allowed} allowed");
    }
}

/// A careful delete: no records while the marks stand alone; the pages are free once mended, and later entries' owners are one less.
#[test]
fn a_careful_delete_frees_owner_and_place() {
    let (button, _) = with_file(Button::formatted(32, 16, true), &file("A"), &[1; 60]);
    let (button, old) = with_file(button, &file("B"), &[2; 30]);
    let known = [(1, 0), FREE, FREE, FREE, (3, 0), (3, 1), FREE];
    assert_eq!(button.clone().careful_delete(&file("A"), 0).1, old);
    let mut stopped = button.clone();
    assert!(all_free(&stopped.careful_delete(&file("A"), 1).1));
    assert_eq!(stopped.mend().1[..7], known);
    assert_eq!(button.clone().careful_delete(&file("A"), 2).1[..7], known);
    assert_eq!(button.clone().delete(&file("A")).1[..7], known);
}

/// A mend that is refused leaves no record; one that has nothing to clear tells all.
#[test]
fn a_mend_tells_owner_and_place_or_nothing() {
    let (mut button, owners) = with_file(Button::formatted(32, 16, true), &file("A"), &[1; 60]);
    assert_eq!(button.mend(), (mended(0), owners));
    let mut pages = button.pages();
    // Page 3, the last of A, is unmarked.
    pages.alter(0, 4, &[0x07]);
    let mut damaged = Button::from(&pages);
    let (told, owners) = damaged.mend();
    assert_eq!((told.number, told.page, told.cleared), (13, 3, 0));
    assert!(all_free(&owners));
}

/// Demands of a built image that each chain has its pages at the places of the plan, by every call that only reads.
fn demand_chains(built: &Built) {
    let button = Button::from(built);
    let owners = button.check().1;
    let entries = built.entries.iter().enumerate();
    for (position, entry) in entries {
        let chain = chain_of(&owners, 3 + position as u16);
        assert_eq!(chain, built.chains[entry.chain].pages, "entry {position}");
    }
    assert_eq!(owners, records(&built.owners));
    assert_eq!(button.list(u32::MAX).1, owners);
    assert_eq!(button.read_into(b"bad", &mut []).1, owners);
}

/// Random trees, those nested to level eight and those of many pages among them.
#[test]
fn chains_of_random_images_are_told_in_order() {
    let (mut long, mut stamped) = (0, 0);
    run_seeds(0xA800_0000..0xA800_0000 + 400, |seed, rng| {
        let built = match seed % 8 {
            0 => deep_image(rng),
            1 if seed % 80 == 1 => large_image(rng),
            1 if seed % 80 == 41 => largest_image(32, 12, 2_000, 10, seed),
            2 | 3 => stamped_plan(rng).build(),
            _ => {
                let (page_length, page_count) = random_sizes(rng, 600);
                random_image(page_length, page_count, rng)
            }
        };
        demand_chains(&built);
        stamped += usize::from(built.entries.iter().any(|entry| entry.stamps > 0));
        long += built
            .chains
            .iter()
            .filter(|chain| chain.pages.len() > 256)
            .count();
    });
    assert!(long > 5, "{long} chains of more than 256 pages");
    assert!(stamped > 100, "{stamped} images with stamps");
}

/// Stamps have no owner and no walk position: owners are counted by plain entries, places by the chain, and a stamp's start page is nobody's by it.
#[test]
fn stamps_have_no_owner_and_take_no_walk_position() {
    let mut pages = Pages::new(32, 16);
    let stamp = |first: u8, start: u8| vec![first, b'X', b' ', b' ', 1, start, 1];
    let root = [
        pages.local_control(&[0, 1, 2, 3, 4, 5]),
        stamp(0x80, 7),
        stamp(0x81, 8),
        pages.entry("D", 127, 1, 0),
    ];
    let second = [stamp(0xFF, 9), pages.entry("B", 1, 5, 1)];
    let sub = [
        pages.sub_control("ROOT", 0),
        stamp(0x82, 3),
        pages.entry("A", 1, 3, 2),
    ];
    pages.packet(0, &root.concat(), 2);
    pages.packet(2, &second.concat(), 0);
    pages.packet(1, &sub.concat(), 0);
    pages.packet(3, b"a", 4).packet(4, b"a", 0);
    pages.packet(5, b"b", 0);
    let button = Button::from(&pages);
    let owners = button.check().1;
    let known = [(1, 0), (3, 0), (1, 1), (4, 0), (4, 1), (5, 0)];
    assert_eq!(owners[..6], known);
    assert!(all_free(&owners[6..]));
    let names: Vec<u32> = button.list_all().iter().map(|entry| entry.name).collect();
    let expected = [*b"D   ", *b"A   ", *b"B   "].map(u32::from_le_bytes);
    assert_eq!(names, expected);
    // A takes pages that stamps name as their start; nobody had them.
    let (_, owners) = with_file(button, &path(&["D"], "A", 1), &[1; 28 * 6]);
    assert_eq!(chain_of(&owners, 4), [3, 4, 6, 7, 8, 9]);
}

/// A table that was full of records before has none left of the pages that became free, by any call.
#[test]
fn what_stood_in_the_table_before_does_not_matter() {
    let (button, _) = with_file(Button::formatted(32, 16, true), &file("A"), &[1; 60]);
    let known = button.check().1;
    for byte in [0x00, 0x01, 0xFF] {
        let mut table = vec![byte; table_bytes(16)];
        agreed::check(32, 16, &button.image, &mut table);
        assert_eq!(records(&table), known);
        let mut image = button.image.clone();
        let told = agreed::delete(32, 16, &mut image, &file("A"), &mut table);
        assert_eq!(told, answer(0, 0));
        assert_eq!(table[..4], [1, 0, 0, 0]);
        assert!(table[4..].iter().all(|&byte| byte == 0));
    }
}
