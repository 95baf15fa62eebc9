//! The examples of document 01 (case 9 as A3 has it), byte for byte, by their numbers there.
//!
//! Programs: the library and the second program. Each call is made by both; every answer and every lent byte is compared.
//! The archive is made by `tools/build`.

use common::agreed::check_bytes;
use common::{all_free, answer, chain_of, Button, Record};
use referee::builder::pages::{path, Pages};
use referee::geometry::Geometry;
use referee::{Listing, Totals};

const PAGE_0_FORMATTED: [u8; 11] = [
    0x08, 0xAA, 0x00, 0x80, 0x01, 0x00, 0x00, 0x00, 0x00, 0x30, 0x38,
];

const PAGE_0_DEMO: [u8; 18] = [
    0x0F, 0xAA, 0x00, 0x80, 0x03, 0x00, 0x00, 0x00, 0x44, 0x45, 0x4D, 0x4F, 0x0C, 0x01, 0x01, 0x00,
    0x73, 0xA5,
];

const PAGE_1_DEMO: [u8; 8] = [0x05, 0x54, 0x45, 0x53, 0x54, 0x00, 0x14, 0x6A];

/// What the bytes of an image are before it is formatted.
const FILLS: [u8; 3] = [0x00, 0xFF, 0x5A];

/// An image of pages of 32 bytes that hold this byte throughout.
fn filled(page_count: u32, fill: u8) -> Button {
    let mut button = Button::zeros(32, page_count);
    button.image.fill(fill);
    button
}

/// An image of 16 pages of 32 bytes that starts with these pages.
fn starting_with(pages: &[&[u8]]) -> Button {
    let mut button = Button::zeros(32, 16);
    for (page, bytes) in pages.iter().enumerate() {
        button.image[32 * page..32 * page + bytes.len()].copy_from_slice(bytes);
    }
    button
}

/// The totals of an accepted image.
fn totals(used: u32, files: u32, directories: u32) -> Totals {
    Totals {
        number: 0,
        page: 0,
        used,
        files,
        directories,
    }
}

/// Demands that the first pages have these owners and places, and that all others are free.
fn owned(owners: &[Record], first: &[Record]) {
    assert_eq!(owners[..first.len()], *first);
    assert!(all_free(&owners[first.len()..]));
}

/// Example 2 with every other byte of the image set to `fill`.
fn example_2(fill: u8) -> Button {
    let mut button = filled(16, fill);
    let (done, owners) = button.format(true);
    assert_eq!(done, answer(0, 0));
    owned(&owners, &[(1, 0)]);
    button
}

/// Example 3: example 2 and a put of DEMO.12.
fn example_3(fill: u8) -> Button {
    let mut button = example_2(fill);
    let (done, owners) = button.put(b"DEMO\x0C", b"TEST");
    assert_eq!(done, answer(0, 0));
    owned(&owners, &[(1, 0), (3, 0)]);
    button
}

#[test]
fn example_01_check_of_page_1() {
    let packet = [0x05, 0x54, 0x65, 0x73, 0x74, 0x00];
    assert_eq!(check_bytes(1, &packet), [0x07, 0xA0]);
}

/// The printed page 0 is written, and no byte after it.
#[test]
fn example_02_format() {
    for fill in FILLS {
        let button = example_2(fill);
        assert_eq!(button.page(0)[..11], PAGE_0_FORMATTED);
        assert!(button.image[11..].iter().all(|&byte| byte == fill));
    }
}

/// The printed page 0 is accepted and has no entry.
#[test]
fn example_02_printed_page() {
    let button = starting_with(&[&PAGE_0_FORMATTED]);
    let (told, owners) = button.check();
    assert_eq!(told, totals(1, 0, 0));
    owned(&owners, &[(1, 0)]);
    let absent = Listing {
        number: 15,
        ..Listing::default()
    };
    assert_eq!(button.list(0).0, absent);
}

/// The printed pages are written, and no byte after their packets.
#[test]
fn example_03_put() {
    for fill in FILLS {
        let button = example_3(fill);
        assert_eq!(button.page(0)[..18], PAGE_0_DEMO);
        assert_eq!(button.page(1)[..8], PAGE_1_DEMO);
        assert!(button.page(0)[18..].iter().all(|&byte| byte == fill));
        assert!(button.image[40..].iter().all(|&byte| byte == fill));
        assert_eq!(button.read(b"DEMO\x0C"), (0, b"TEST".to_vec()));
        assert_eq!(button.check().0, totals(2, 1, 0));
    }
}

/// The printed pages are accepted, listed and read.
#[test]
fn example_03_printed_pages() {
    let button = starting_with(&[&PAGE_0_DEMO, &PAGE_1_DEMO]);
    let (told, owners) = button.check();
    assert_eq!(told, totals(2, 1, 0));
    owned(&owners, &[(1, 0), (3, 0)]);
    let demo = Listing {
        name: u32::from_le_bytes(*b"DEMO"),
        extension: 12,
        start: 1,
        pages: 1,
        length: 4,
        ..Listing::default()
    };
    assert_eq!(button.list(0).0, demo);
    assert_eq!(button.read(b"DEMO\x0C"), (0, b"TEST".to_vec()));
}

#[test]
fn example_04_delete() {
    for fill in FILLS {
        let mut button = example_3(fill);
        let before = button.clone();
        let (done, owners) = button.delete(b"DEMO\x0C");
        assert_eq!(done, answer(0, 0));
        owned(&owners, &[(1, 0)]);
        assert_eq!(button.page(0)[..11], PAGE_0_FORMATTED);
        let stays = [0x4F, 0x0C, 0x01, 0x01, 0x00, 0x73, 0xA5];
        assert_eq!(button.page(0)[11..18], stays);
        assert_eq!(button.page(1)[..8], PAGE_1_DEMO);
        assert_eq!(button.image[18..], before.image[18..]);
        assert_eq!(button.delete(b"DEMO\x0C").0, answer(15, 0));
    }
}

#[test]
fn example_05_checks_that_document_001_misprints() {
    let page_3 = [0x05, 0x54, 0x45, 0x53, 0x54, 0x00];
    assert_eq!(check_bytes(3, &page_3), [0x15, 0x88]);
    assert_eq!(check_bytes(2, &[5, 0, 0, 0, 0, 0]), [0xFE, 0x48]);
}

#[test]
fn example_06_pages_of_files() {
    for (length, pages) in [(0, 1), (28, 1), (29, 2)] {
        let mut button = example_2(0);
        let bytes = vec![7; length];
        assert_eq!(button.put(b"F   \x00", &bytes).0, answer(0, 0));
        let listing = button.list(0).0;
        assert_eq!(listing.pages, pages);
        assert_eq!(listing.length as usize, length);
        assert_eq!(button.check().0, totals(1 + pages, 1, 0));
        assert_eq!(button.read(b"F   \x00"), (0, bytes));
    }
}

#[test]
fn example_07_all_pages() {
    let bytes: Vec<u8> = (0..421_u32).map(|byte| byte as u8).collect();
    let mut button = example_2(0);
    assert_eq!(button.put(b"BIG \x07", &bytes).0, answer(17, 0));
    assert_eq!(button.put(b"BIG \x07", &bytes[..420]).0, answer(0, 0));
    assert_eq!(button.list(0).0.pages, 15);
    assert_eq!(button.check().0, totals(16, 1, 0));
    assert_eq!(button.put(b"BIG \x07", &bytes).0, answer(17, 0));
    let other: Vec<u8> = bytes[..420].iter().map(|byte| !byte).collect();
    let (done, owners) = button.put(b"BIG \x07", &other);
    assert_eq!(done, answer(0, 0));
    assert_eq!(owners[0], (1, 0));
    assert_eq!(chain_of(&owners, 3), (1..16).collect::<Vec<usize>>());
    assert_eq!(button.read(b"BIG \x07"), (0, other));
}

#[test]
fn example_08_fourth_file() {
    let mut button = example_2(0);
    for (file, used) in [("A", 2), ("B", 3), ("C", 4), ("D", 6)] {
        assert_eq!(button.put(&path(&[], file, 1), b"one").0, answer(0, 0));
        assert_eq!(button.check().0.used, used);
    }
    let known = [(1, 0), (3, 0), (4, 0), (5, 0), (1, 1), (6, 0)];
    owned(&button.check().1, &known);
}

/// N 32 with a local bitmap is formatted; N 33 is 4 and changes nothing, and its owners are those of the image as it stands.
#[test]
fn example_09_format() {
    for page_count in [31, 32] {
        let mut button = filled(page_count, 0xFF);
        let (done, owners) = button.format(true);
        assert_eq!(done, answer(0, 0));
        owned(&owners, &[(1, 0)]);
        assert_eq!(button.page(0)[..11], PAGE_0_FORMATTED);
        assert!(button.image[11..].iter().all(|&byte| byte == 0xFF));
        assert_eq!(button.check().0, totals(1, 0, 0));
    }

    let mut button = filled(33, 0xFF);
    let (done, owners) = button.format(true);
    assert_eq!(done, answer(4, 0));
    owned(&owners, &[]);
    assert_eq!(button, filled(33, 0xFF));
    let (done, owners) = button.format(false);
    assert_eq!(done, answer(0, 0));
    owned(&owners, &[(1, 0), (2, 0)]);
    let accepted = button.clone();
    let (done, owners) = button.format(true);
    assert_eq!(done, answer(4, 0));
    owned(&owners, &[(1, 0), (2, 0)]);
    assert_eq!(button, accepted);
}

/// N 32 with a local bitmap is accepted; the same page 0 with N 33 is 4.
#[test]
fn example_09_local_bitmap() {
    let mut button = Button::formatted(32, 32, true);
    assert_eq!(button.check().0, totals(1, 0, 0));
    button.page_count = 33;
    button.image.resize(32 * 33, 0);
    let (told, owners) = button.check();
    assert_eq!(answer(told.number, told.page), answer(4, 0));
    owned(&owners, &[]);
}

/// Page numbers of one byte with N 256 and of two with N 257: length byte, marker, map address, bitmap control and the bitmap file's place
/// in page 0, and the file's packets on pages 1 and 2.
#[test]
fn example_10_format() {
    let roots: [(u32, &[u8]); 2] = [
        (256, &[8, 0xAA, 0, 0, 0, 0, 1, 2, 0]),
        (257, &[10, 0xAB, 0, 0, 0, 1, 0, 2, 0, 0, 0]),
    ];
    for (page_count, root) in roots {
        let mut button = filled(page_count, 0xFF);
        let (done, owners) = button.format(false);
        assert_eq!(done, answer(0, 0));
        owned(&owners, &[(1, 0), (2, 0), (2, 1)]);
        assert_eq!(button.check().0, totals(3, 0, 0));
        assert_eq!(button.page(0)[..root.len()], *root);
        let n = if page_count == 256 { 1 } else { 2 };
        let number_length = Geometry::new(32, page_count).map(|known| known.number_length());
        assert_eq!(number_length, Some(n));
        let lengths = [
            root.len() - 1,
            29,
            page_count.div_ceil(8) as usize - (29 - n) + n,
        ];
        for (page, length) in lengths.into_iter().enumerate() {
            let (packet, after) = button.page(page).split_at(1 + length);
            assert_eq!(usize::from(packet[0]), length);
            assert_eq!(after[..2], check_bytes(page as u16, packet));
            assert!(after[2..].iter().all(|&byte| byte == 0xFF));
        }
        let pages = button.pages();
        assert_eq!(pages.body(1)[..2], [0x07, 0x00]);
        assert_eq!((pages.pointer(1), pages.pointer(2)), (2, 0));
        assert!(button.image[3 * 32..].iter().all(|&byte| byte == 0xFF));
    }
}

/// Page numbers of one byte with N 256 and of two with N 257: the other marker is refused at page 0.
#[test]
fn example_10_markers() {
    for (page_count, marker) in [(256, 0xAA), (257, 0xAB)] {
        let button = Button::formatted(32, page_count, false);
        assert_eq!(button.page(0)[1], marker);
        let mut other = button.pages();
        other.alter(0, 1, &[marker ^ 1]);
        let (told, owners) = Button::from(&other).check();
        assert_eq!(answer(told.number, told.page), answer(3, 0));
        owned(&owners, &[]);
    }
}

/// An image of so many pages with a bitmap file on pages 1 and 2 and a file on the last page.
fn file_on_the_last_page(page_count: u32) -> Pages {
    let last = page_count as usize - 1;
    let mut pages = Button::formatted(32, page_count, false).pages();
    let mut root = pages.file_control(1, 2);
    root.extend(pages.entry("LAST", 7, last, 1));
    let mut bits = vec![0; pages.geometry.bitmap_file_length()];
    for used in [0, 1, 2, last] {
        bits[used / 8] |= 1 << (used % 8);
    }
    let (first, second) = bits.split_at(pages.geometry.max_data());
    pages.packet(0, &root, 0).packet(last, b"at the end", 0);
    pages.packet(1, first, 2).packet(2, second, 0);
    pages
}

/// A file on page 255, and on page 256, whose number needs two bytes: it is accepted, listed and read, and a put fills all pages before it.
#[test]
fn example_10_last_page() {
    for (page_count, packet) in [(256, 28), (257, 27)] {
        let mut button = Button::from(&file_on_the_last_page(page_count));
        assert_eq!(button.check().0, totals(4, 1, 0));
        let listing = button.list(0).0;
        assert_eq!((listing.start, listing.length), (page_count - 1, 10));
        assert_eq!(button.read(b"LAST\x07"), (0, b"at the end".to_vec()));
        let all = vec![0x42; packet * (page_count as usize - 4)];
        assert_eq!(button.put(b"ALL \x07", &all).0, answer(0, 0));
        assert_eq!(button.check().0, totals(page_count, 2, 0));
        assert_eq!(button.read(b"ALL \x07"), (0, all));
        assert_eq!(button.read(b"LAST\x07"), (0, b"at the end".to_vec()));
    }
}
