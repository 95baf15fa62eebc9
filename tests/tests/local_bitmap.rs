//! The largest local bitmap: 32 pages, one for each of its bits, the last for page 31. P is 32 unless said.
//!
//! Programs: the library and the second program. Each call is made by both; every answer and every lent byte is compared.
//! The archive is made by `tools/build`.

use common::{all_free, answer, chain_of, Button, Record, FREE};
use referee::builder::pages::{path, Pages};

/// N of the images, and the bits of a local bitmap.
const PAGES: u32 = 32;

/// The place of the bitmap's four bytes in page 0: after length byte, marker, map address and bitmap control.
const BITMAP_AT: usize = 4;

/// The bitmap with all bits set.
const ALL: u32 = u32::MAX;

/// The bit of the last page.
const LAST: u32 = 1 << 31;

/// The four bytes of the local bitmap as a number whose bit k is that of page k.
fn bitmap(button: &Button) -> u32 {
    let four = &button.page(0)[BITMAP_AT..BITMAP_AT + 4];
    four.iter()
        .rev()
        .fold(0, |bits, &byte| bits << 8 | u32::from(byte))
}

/// The image with another bitmap.
fn with_bitmap(button: &Button, bits: u32) -> Button {
    let mut pages = button.pages();
    pages.alter(0, BITMAP_AT, &bits.to_le_bytes());
    Button::from(&pages)
}

/// The image with these bits of the bitmap wrong.
fn with_wrong_bits(button: &Button, wrong: u32) -> Button {
    with_bitmap(button, bitmap(button) ^ wrong)
}

/// So many bytes, not all alike.
fn some_bytes(length: usize) -> Vec<u8> {
    (0..length)
        .map(|place| (place + place / 251) as u8)
        .collect()
}

/// The most bytes of a file on so many pages.
fn most_bytes(button: &Button, pages: u32) -> usize {
    button.pages().geometry.max_data() * pages as usize
}

/// A formatted image with one file on all pages but page 0.
fn with_one_large_file(page_length: u32, page_count: u32) -> Button {
    let mut button = Button::formatted(page_length, page_count, true);
    let bytes = some_bytes(most_bytes(&button, page_count - 1));
    assert_eq!(button.put(b"ALL \x01", &bytes).0, answer(0, 0));
    button
}

/// Files and a directory, on page 31 and others: A on 1 and 30, D on 31, and in it E on 16.
fn with_scattered_files() -> Button {
    let mut pages = Pages::new(32, PAGES);
    let mut root = pages.local_control(&[0, 1, 16, 30, 31]);
    root.extend(pages.entry("A", 1, 30, 2));
    root.extend(pages.entry("D", 0x7F, 31, 0));
    let mut directory = pages.sub_control("ROOT", 0);
    directory.extend(pages.entry("E", 2, 16, 1));
    pages
        .packet(0, &root, 0)
        .packet(30, b"first", 1)
        .packet(1, b"second", 0)
        .packet(31, &directory, 0)
        .packet(16, b"below", 0);
    Button::from(&pages)
}

/// Accepted images: an empty one, one with some files, and one with all pages in use.
fn accepted_images() -> [Button; 3] {
    let images = [
        Button::formatted(32, PAGES, true),
        with_scattered_files(),
        with_one_large_file(32, PAGES),
    ];
    for image in &images {
        assert_eq!(image.verdict(), answer(0, 0));
    }
    images
}

#[test]
fn every_wrong_bit_of_32_is_13_at_its_page() {
    for image in accepted_images() {
        for page in 0..PAGES {
            with_wrong_bits(&image, 1 << page).refused_by_all(13, page);
        }
    }
}

#[test]
fn of_two_wrong_bits_the_lower_page_is_told() {
    for image in accepted_images() {
        for higher in 1..PAGES {
            for lower in 0..higher {
                let wrong = with_wrong_bits(&image, 1 << lower | 1 << higher);
                assert_eq!(wrong.verdict(), answer(13, lower), "{lower} and {higher}");
            }
        }
    }
}

#[test]
fn of_all_bits_from_one_up_wrong_the_lowest_page_is_told() {
    for image in accepted_images() {
        for lowest in 0..PAGES {
            with_wrong_bits(&image, ALL << lowest).refused_by_all(13, lowest);
        }
    }
}

/// With all pages in use the bits of the N pages are set and those from N up are not; with 32 pages there are none of these.
#[test]
fn no_bit_from_n_up_is_left_with_32_pages() {
    for page_count in 2..=PAGES {
        let full = with_one_large_file(32, page_count);
        assert_eq!(full.check().0.used, page_count);
        assert_eq!(bitmap(&full), ALL >> (PAGES - page_count));
        for page in page_count..PAGES {
            with_wrong_bits(&full, 1 << page).refused_by_all(13, page);
        }
        let verdict = with_bitmap(&full, ALL).verdict();
        let expected = match page_count {
            PAGES => answer(0, 0),
            _ => answer(13, page_count),
        };
        assert_eq!(verdict, expected, "{page_count} pages");
    }
}

/// The bytes beside the bitmap are none of its bits: the bitmap control before it, the packet's pointer after it.
#[test]
fn bytes_beside_the_bitmap_are_not_of_it() {
    let image = Button::formatted(32, PAGES, true);
    let mut pages = image.pages();
    pages.alter(0, BITMAP_AT - 1, &[0x82]);
    Button::from(&pages).refused_by_all(4, 0);
    let mut pages = image.pages();
    pages.alter(0, BITMAP_AT + 4, &[32]);
    Button::from(&pages).refused_by_all(6, 0);
}

/// With a page more a local bitmap is refused at page 0, whatever its bits are, and format refuses to make one.
#[test]
fn a_33rd_page_is_4_for_check_and_format() {
    for mut image in accepted_images() {
        image.page_count = PAGES + 1;
        image.image.resize(33 * 32, 0);
        image.refused_by_all(4, 0);
        for page in 0..PAGES {
            let wrong = with_wrong_bits(&image, 1 << page);
            assert_eq!(wrong.verdict(), answer(4, 0), "bit {page}");
        }
        let before = image.clone();
        assert_eq!(image.format(true).0, answer(4, 0));
        assert_eq!(image, before);
        assert_eq!(image.format(false).0, answer(0, 0));
        assert_eq!(image.verdict(), answer(0, 0));
    }
}

/// The record of page 31.
fn last_page(button: &Button) -> Record {
    button.check().1[31]
}

/// One file on the 31 pages after page 0: put, read, made shorter by a page, made as long again, deleted.
#[test]
fn one_file_fills_the_31_other_pages() {
    for page_length in [32, 33, 64, 128, 255, 256] {
        let mut button = with_one_large_file(page_length, PAGES);
        let most = most_bytes(&button, 31);
        let (totals, owners) = button.check();
        assert_eq!((totals.used, totals.files), (32, 1));
        assert_eq!(owners[0], (1, 0));
        assert_eq!(chain_of(&owners, 3), (1..32).collect::<Vec<usize>>());
        assert_eq!((button.list(0).0.start, button.list(0).0.pages), (1, 31));
        assert_eq!(button.read(b"ALL \x01"), (0, some_bytes(most)));
        assert_eq!(bitmap(&button), ALL);

        let one_more = some_bytes(most + 1);
        assert_eq!(button.put(b"ALL \x01", &one_more).0, answer(17, 0));
        assert_eq!(button.put(b"MORE\x01", b"").0, answer(17, 0));

        let shorter = some_bytes(most_bytes(&button, 30));
        assert_eq!(button.put(b"ALL \x01", &shorter).0, answer(0, 0));
        assert_eq!((bitmap(&button), last_page(&button)), (ALL ^ LAST, FREE));
        assert_eq!(button.put(b"ALL \x01", &one_more[1..]).0, answer(0, 0));
        assert_eq!((bitmap(&button), last_page(&button)), (ALL, (3, 30)));
        assert_eq!(button.read(b"ALL \x01"), (0, one_more[1..].to_vec()));

        assert_eq!(button.delete(b"ALL \x01").0, answer(0, 0));
        assert_eq!((bitmap(&button), button.check().0.used), (1, 1));
        assert_eq!(button.read(b"ALL \x01").0, 15);
    }
}

/// The path of a file of the root by its number.
fn numbered(number: u8) -> Vec<u8> {
    path(&[], &format!("F{number}"), number)
}

/// 25 files of a page each and the seven pages of the root are all 32 pages. The last file stands on page 31.
#[test]
fn files_fill_all_32_pages() {
    let mut button = Button::formatted(32, PAGES, true);
    for number in 0..25 {
        assert_eq!(button.put(&numbered(number), &[number]).0, answer(0, 0));
        let used = button.check().0.used;
        assert_eq!(bitmap(&button), ALL >> (PAGES - used));
    }
    let (totals, owners) = button.check();
    assert_eq!((totals.used, totals.files), (32, 25));
    assert_eq!(chain_of(&owners, 1), [0, 4, 9, 14, 19, 24, 29]);
    assert_eq!(owners[31], (3 + 24, 0));
    assert_eq!(button.put(&numbered(25), b"").0, answer(17, 0));
    for number in 0..25 {
        assert_eq!(button.read(&numbered(number)), (0, vec![number]));
    }

    // The last page is free and in use again.
    assert_eq!(button.delete(&numbered(24)).0, answer(0, 0));
    assert_eq!((bitmap(&button), last_page(&button)), (ALL ^ LAST, FREE));
    assert_eq!(button.put(&numbered(25), b"new").0, answer(0, 0));
    assert_eq!((bitmap(&button), last_page(&button)), (ALL, (3 + 24, 0)));
    assert_eq!(button.read(&numbered(25)), (0, b"new".to_vec()));

    // A free page below the last is taken, and the last bit stays.
    assert_eq!(button.delete(&numbered(0)).0, answer(0, 0));
    assert_eq!(bitmap(&button), ALL ^ 1 << 1);
    assert_eq!(button.put(&numbered(24), b"low").0, answer(0, 0));
    assert_eq!((bitmap(&button), button.check().1[1]), (ALL, (3 + 2, 0)));

    for number in 1..=25 {
        assert_eq!(button.delete(&numbered(number)).0, answer(0, 0));
    }
    let (totals, owners) = button.check();
    assert_eq!((totals.used, totals.files), (7, 0));
    for (page, &(owner, _)) in owners.iter().enumerate() {
        assert_eq!(u32::from(owner), bitmap(&button) >> page & 1, "page {page}");
    }
}

/// Puts and deletes in the image whose directory stands on page 31: other pages' bits change, that of page 31 stays.
#[test]
fn directory_on_page_31_keeps_its_bit() {
    let mut button = with_scattered_files();
    let before = bitmap(&button);
    assert_eq!(button.read(&path(&["D"], "E", 2)), (0, b"below".to_vec()));
    let bytes = some_bytes(most_bytes(&button, 27));
    assert_eq!(button.put(&path(&["D"], "NEW", 3), &bytes).0, answer(0, 0));
    assert_eq!(bitmap(&button), ALL);
    assert_eq!(button.read(&path(&["D"], "NEW", 3)), (0, bytes));
    assert_eq!(button.put(&path(&["D"], "MORE", 3), b"").0, answer(17, 0));
    assert_eq!(button.delete(&path(&["D"], "NEW", 3)).0, answer(0, 0));
    assert_eq!(bitmap(&button), before);
    assert_eq!(button.delete(&path(&["D"], "E", 2)).0, answer(0, 0));
    assert_eq!(bitmap(&button), before ^ 1 << 16);
}

/// A format over a full image leaves only the bit of page 0, and the other pages' bytes as they were.
#[test]
fn format_clears_all_bits_but_the_first() {
    let mut button = with_one_large_file(32, PAGES);
    let before = button.clone();
    let (done, owners) = button.format(true);
    assert_eq!(done, answer(0, 0));
    assert_eq!(bitmap(&button), 1);
    assert_eq!(owners[0], (1, 0));
    assert!(all_free(&owners[1..]));
    assert_eq!(button.image[32..], before.image[32..]);
}
