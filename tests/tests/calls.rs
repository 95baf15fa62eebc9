//! Arguments, paths, places, room and output of the calls, on images made by hand.
//!
//! Programs: the library and the second program. Each call is made by both; every answer and every lent byte is compared.
//! The archive is made by `tools/build`.

use common::{
    agreed, all_free, answer, chain_of, no_writes, not_mended, records, Button, Record, FREE,
};
use referee::builder::pages::{path, Pages};
use referee::{Answer, Length, Listing, Totals};

/// Every call answers 1 to these arguments; image, output and table stay as they are.
fn refused_with_1(page_length: u32, page_count: u32, image_length: usize, table_length: usize) {
    let mut image = vec![0x3C; image_length];
    let mut table = vec![0x99; table_length];
    queries_refused_with_1(page_length, page_count, &image, &mut table);
    edits_refused_with_1(page_length, page_count, &mut image, &mut table);
    careful_refused_with_1(page_length, page_count, &mut image, &mut table);
    assert!(image.iter().all(|&byte| byte == 0x3C));
    assert!(table.iter().all(|&byte| byte == 0x99));
}

/// Check, list and read answer 1; the output stays as it is.
fn queries_refused_with_1(p: u32, n: u32, image: &[u8], table: &mut [u8]) {
    let totals = Totals {
        number: 1,
        ..Totals::default()
    };
    assert_eq!(agreed::check(p, n, image, table), totals);
    let listing = Listing {
        number: 1,
        ..Listing::default()
    };
    assert_eq!(agreed::list(p, n, image, table, 0), listing);
    let length = Length {
        number: 1,
        ..Length::default()
    };
    let mut out = [0x77; 16];
    let read = agreed::read(p, n, image, b"A   \x01", &mut out, table);
    assert_eq!(read, length);
    assert_eq!(out, [0x77; 16]);
}

/// Format, put and delete answer 1, and so does the making and the removing of a directory.
fn edits_refused_with_1(p: u32, n: u32, image: &mut [u8], table: &mut [u8]) {
    let one = answer(1, 0);
    for local in [0, 1, u32::MAX] {
        assert_eq!(agreed::format(p, n, image, table, local), one);
    }
    let path = b"A   \x01";
    assert_eq!(agreed::put(p, n, image, path, b"x", table), one);
    assert_eq!(agreed::delete(p, n, image, path, table), one);
    for path in [&b"A   "[..], b"bad"] {
        assert_eq!(agreed::make_directory(p, n, image, path, table), one);
        assert_eq!(agreed::remove_directory(p, n, image, path, table), one);
    }
}

/// Careful put, careful delete and mend answer 1.
fn careful_refused_with_1(p: u32, n: u32, image: &mut [u8], table: &mut [u8]) {
    let path = b"A   \x01";
    for allowed in [0, 1, u32::MAX] {
        let put = agreed::careful_put(p, n, image, path, b"x", table, allowed);
        let delete = agreed::careful_delete(p, n, image, path, table, allowed);
        assert_eq!((put, delete), (no_writes(1, 0), no_writes(1, 0)));
    }
    assert_eq!(agreed::mend(p, n, image, table), not_mended(1, 0));
}

#[test]
fn page_length_or_page_count_outside_its_limits_is_1() {
    for page_length in [0, 1, 31, 257, 65_535, 65_536, 65_568, u32::MAX] {
        let fitting = page_length as usize % 1_000 * 16;
        for image_length in [0, 512, fitting] {
            refused_with_1(page_length, 16, image_length, 128);
        }
    }
    for page_count in [0, 1, 65_536, 65_552, u32::MAX] {
        for image_length in [0, 32, 512] {
            refused_with_1(32, page_count, image_length, 128);
        }
    }
    refused_with_1(32, 1, 32, 128);
    refused_with_1(31, 16, 31 * 16, 128);
    refused_with_1(257, 16, 257 * 16, 128);
    refused_with_1(32, 65_536, 32 * 65_536, 4 * 65_536);
    // Products that are small or zero in 32 bits.
    refused_with_1(65_536, 65_536, 0, 64);
    refused_with_1(u32::MAX, u32::MAX, 1, 64);
    refused_with_1(u32::MAX, u32::MAX, 0, 0);
    refused_with_1(0, 0, 0, 0);
    refused_with_1(256, 65_536 * 256, 0, 64);
}

#[test]
fn image_of_another_length_is_1() {
    for image_length in [0, 1, 32, 511, 513, 544, 1_024] {
        refused_with_1(32, 16, image_length, 128);
    }
    refused_with_1(256, 65_535, 0, 4 * 65_535);
    refused_with_1(256, 65_535, 256 * 65_535 - 1, 4 * 65_535);
}

#[test]
fn owner_table_too_short_is_1_and_a_longer_one_keeps_its_rest() {
    for table_length in [0, 1, 2, 4, 16, 31, 32, 33, 60, 61, 62, 63] {
        refused_with_1(32, 16, 512, table_length);
    }
    for short in [1, 2, 3, 4, 65_535, 2 * 65_535] {
        refused_with_1(32, 65_535, 32 * 65_535, 4 * 65_535 - short);
    }
    let mut image = vec![0; 512];
    for table_length in [64, 65, 66, 67, 68, 1_000] {
        let mut table = vec![0x99; table_length];
        let done = agreed::format(32, 16, &mut image, &mut table, 0);
        assert_eq!(done, answer(0, 0));
        assert_eq!(table[..8], [1, 0, 0, 0, 2, 0, 0, 0]);
        assert!(table[8..64].iter().all(|&byte| byte == 0));
        assert!(table[64..].iter().all(|&byte| byte == 0x99));
    }
}

/// DEMO.12 with "TEST", FULL.0 read-only, and a directory D with X.1 and Y.99 below it.
fn sample() -> Button {
    let mut pages = Pages::new(32, 16);
    let mut root = pages.local_control(&[0, 1, 2, 3, 4, 5]);
    root.extend(pages.entry("DEMO", 12, 1, 1));
    root.extend(pages.entry("FULL", 0x80, 2, 1));
    root.extend(pages.entry("D", 0x7F, 3, 0));
    let mut sub = pages.sub_control("ROOT", 0);
    sub.extend(pages.entry("X", 1, 4, 1));
    sub.extend(pages.entry("Y", 99, 5, 1));
    pages.packet(0, &root, 0).packet(1, b"TEST", 0);
    pages.packet(2, b"", 0).packet(3, &sub, 0);
    pages.packet(4, b"xx", 0).packet(5, b"yyy", 0);
    Button::from(&pages)
}

/// The records of the first pages of the sample; each chain has one page.
const SAMPLE_OWNERS: [Record; 7] = [(1, 0), (3, 0), (4, 0), (5, 0), (6, 0), (7, 0), FREE];

/// Demands one refusal of a path from read, put and delete, with the records of the accepted image.
fn path_refused(path: &[u8], number: u32) {
    let mut button = sample();
    let (length, owners) = button.read_into(path, &mut [0; 100]);
    let expected = Length {
        number,
        ..Length::default()
    };
    assert_eq!(length, expected, "read {path:?}");
    assert_eq!(owners[..7], SAMPLE_OWNERS);
    let (put, owners) = button.put(path, b"new");
    assert_eq!(put, answer(number, 0), "put {path:?}");
    assert_eq!(owners[..7], SAMPLE_OWNERS);
    let (delete, owners) = button.delete(path);
    assert_eq!(delete, answer(number, 0), "delete {path:?}");
    assert_eq!(owners[..7], SAMPLE_OWNERS);
    for allowed in [0, 9] {
        let (put, owners) = button.careful_put(path, b"new", allowed);
        assert_eq!(put, no_writes(number, 0), "careful put {path:?}");
        assert_eq!(owners[..7], SAMPLE_OWNERS);
        let (delete, owners) = button.careful_delete(path, allowed);
        assert_eq!(delete, no_writes(number, 0), "careful delete {path:?}");
        assert_eq!(owners[..7], SAMPLE_OWNERS);
    }
}

#[test]
fn path_of_another_length_is_14() {
    let whole = b"D   ".repeat(20);
    for length in 0..=whole.len() {
        let mut path = whole[..length].to_vec();
        if let Some(last) = path.last_mut() {
            *last = 1;
        }
        if length % 4 != 1 || !(5..=37).contains(&length) {
            path_refused(&path, 14);
        } else if length > 9 {
            path_refused(&path, 15);
        }
    }
    path_refused(&vec![b'A'; 100_001], 14);
}

#[test]
fn last_byte_of_a_path_above_99_is_14() {
    for last in 0..=255_u8 {
        let number = sample().read(&path(&["D"], "X", last)).0;
        let expected = match last {
            1 => 0,
            0..=99 => 15,
            _ => 14,
        };
        assert_eq!(number, expected);
    }
    for last in [100, 126, 127, 0x80, 0x8C, 0xFF] {
        path_refused(&path(&[], "DEMO", last), 14);
        path_refused(&path(&[], "FULL", last), 14);
        path_refused(&path(&[], "D", last), 14);
    }
    path_refused(b"DEMO", 14);
    path_refused(b"D   X   ", 14);
}

#[test]
fn malformed_name_in_a_path_is_14() {
    for name in ["A B ", "    ", " A  ", "a   ", "A.B ", "A\0  ", "A\\  "] {
        path_refused(&path(&[], name, 1), 14);
        path_refused(&path(&["D"], name, 1), 14);
        path_refused(&path(&[name], "X", 1), 14);
        path_refused(&path(&["NONE", name], "X", 1), 14);
    }
    for byte in 128..=255_u8 {
        path_refused(&[byte, b' ', b' ', b' ', 1], 14);
        path_refused(&[b'A', byte, b' ', b' ', 1], 14);
    }
}

#[test]
fn missing_directory_is_15() {
    path_refused(&path(&["NONE"], "X", 1), 15);
    path_refused(&path(&["DEMO"], "X", 1), 15);
    path_refused(&path(&["D", "X"], "X", 1), 15);
    path_refused(&path(&["D", "D"], "X", 1), 15);
    path_refused(&path(&["ROOT"], "DEMO", 12), 15);
}

#[test]
fn missing_file_is_15_for_read_and_delete_and_is_made_by_put() {
    for missing in [
        path(&[], "NONE", 1),
        path(&[], "DEMO", 11),
        path(&[], "X", 1),
        path(&["D"], "DEMO", 12),
        path(&[], "D", 99),
    ] {
        let mut button = sample();
        assert_eq!(button.read(&missing).0, 15);
        assert_eq!(button.delete(&missing).0, answer(15, 0));
        assert_eq!(button.put(&missing, b"new").0, answer(0, 0));
        assert_eq!(button.read(&missing), (0, b"new".to_vec()));
    }
}

/// Refusals 14 to 18 leave the accepted image's owners in the table; for 22 see `files_below_hidden_directories_are_read_and_not_edited`.
#[test]
fn refusals_14_to_18_leave_the_owners_of_the_accepted_image() {
    path_refused(b"bad", 14);
    path_refused(&path(&["NONE"], "X", 1), 15);
    let mut button = sample();
    let (done, owners) = button.put(b"FULL\x00", b"");
    assert_eq!((done, &owners[..7]), (answer(16, 0), &SAMPLE_OWNERS[..]));
    let (done, owners) = button.put(b"DEMO\x0C", &[0; 1_000]);
    assert_eq!((done, &owners[..7]), (answer(17, 0), &SAMPLE_OWNERS[..]));
    let (length, owners) = button.read_into(b"DEMO\x0C", &mut [0; 3]);
    assert_eq!((length.number, &owners[..7]), (18, &SAMPLE_OWNERS[..]));
    let (listing, owners) = button.list(5);
    assert_eq!((listing.number, &owners[..7]), (15, &SAMPLE_OWNERS[..]));
}

#[test]
fn read_only_file_is_16_for_put_and_delete_and_is_read() {
    let mut button = sample();
    assert_eq!(button.put(b"FULL\x00", b"").0, answer(16, 0));
    assert_eq!(button.put(b"FULL\x00", &[0; 10_000]).0, answer(16, 0));
    assert_eq!(button.delete(b"FULL\x00").0, answer(16, 0));
    assert_eq!(button.read(b"FULL\x00"), (0, Vec::new()));
}

#[test]
fn output_too_short_is_18_and_a_longer_one_keeps_its_rest() {
    let button = sample();
    for length in 0..4 {
        let (answer, _) = button.read_into(b"DEMO\x0C", &mut vec![1; length]);
        let expected = Length {
            number: 18,
            ..Length::default()
        };
        assert_eq!(answer, expected);
    }
    let mut exact = [0; 4];
    assert_eq!(button.read_into(b"DEMO\x0C", &mut exact).0.length, 4);
    assert_eq!(exact, *b"TEST");
    let mut longer = [0x55; 6];
    assert_eq!(button.read_into(b"DEMO\x0C", &mut longer).0.length, 4);
    assert_eq!(longer, *b"TESTUU");
    assert_eq!(button.read_into(b"FULL\x00", &mut []).0, Length::default());
}

#[test]
fn position_past_the_end_is_15() {
    let button = sample();
    for position in [5, 6, 255, 256, 65_535, 65_536, 65_537, u32::MAX] {
        let expected = Listing {
            number: 15,
            ..Listing::default()
        };
        assert_eq!(button.list(position).0, expected);
    }
}

#[test]
fn list_tells_every_field_of_each_entry() {
    let listings = sample().list_all();
    let expected = [
        (0, *b"DEMO", 12, 0, 1, 1, 4),
        (0, *b"FULL", 0, 1, 2, 1, 0),
        (0, *b"D   ", 127, 0, 3, 0, 0),
        (1, *b"X   ", 1, 0, 4, 1, 2),
        (1, *b"Y   ", 99, 0, 5, 1, 3),
    ];
    assert_eq!(listings.len(), expected.len());
    for (listing, (level, name, extension, attribute, start, pages, length)) in
        listings.into_iter().zip(expected)
    {
        let expected = Listing {
            number: 0,
            page: 0,
            level,
            name: u32::from_le_bytes(name),
            extension,
            attribute,
            start,
            pages,
            length,
        };
        assert_eq!(listing, expected);
    }
}

#[test]
fn check_tells_pages_in_use_files_directories_and_owners() {
    let (totals, owners) = sample().check();
    let expected = Totals {
        number: 0,
        page: 0,
        used: 6,
        files: 4,
        directories: 1,
    };
    assert_eq!(totals, expected);
    assert_eq!(owners[..7], SAMPLE_OWNERS);
}

/// Walk order: right after a subdirectory's entry all entries below it; each page has its own entry's number, and its place in that entry's chain.
#[test]
fn owner_numbers_follow_walk_order() {
    let mut pages = Pages::new(32, 16);
    let mut root = pages.file_control(9, 1);
    root.extend(pages.entry("D", 0x7F, 3, 0));
    root.extend(pages.entry("Z", 1, 8, 2));
    let mut sub = pages.sub_control("ROOT", 0);
    sub.extend(pages.entry("E", 0x7F, 5, 0));
    sub.extend(pages.entry("X", 1, 6, 1));
    let lower = pages.sub_control("D", 3);
    pages.packet(0, &root, 1).packet(1, b"", 0);
    pages.packet(3, &sub, 4).packet(4, b"", 0);
    pages.packet(5, &lower, 10).packet(10, b"", 0);
    pages
        .packet(6, b"x", 0)
        .packet(8, b"z", 7)
        .packet(7, b"z", 0);
    pages.packet(9, &[0xFB, 0x07], 0);
    let (totals, owners) = Button::from(&pages).check();
    assert_eq!((totals.used, totals.files, totals.directories), (10, 2, 2));
    let (first, second) = (0, 1);
    let known = [
        (1, first),
        (1, second),
        FREE,
        (3, first),
        (3, second),
        (4, first),
        (5, first),
        (6, second),
        (6, first),
        (2, first),
        (4, second),
        FREE,
    ];
    assert_eq!(owners[..12], known);
}

#[test]
fn refused_format_leaves_the_owners_of_the_image_as_it_stands() {
    let mut button = Button::formatted(32, 40, false);
    let (done, owners) = button.format(true);
    assert_eq!(done, answer(4, 0));
    assert_eq!(owners[..3], [(1, 0), (2, 0), FREE]);
    let mut blank = Button::zeros(32, 40);
    let (done, owners) = blank.format(true);
    assert_eq!(done, answer(4, 0));
    assert!(all_free(&owners));
    let mut table = vec![9; 160];
    let mut short = vec![0; 40 * 32 - 1];
    let refused = agreed::format(32, 40, &mut short, &mut table, 1);
    assert_eq!(refused, answer(1, 0));
    assert_eq!(table, vec![9; 160]);
}

#[test]
fn format_lays_the_bitmap_file_from_page_1_in_full_packets() {
    for (page_length, page_count, lengths) in [
        (32, 2, vec![1]),
        (32, 16, vec![2]),
        (32, 224, vec![28]),
        (32, 225, vec![28, 1]),
        (32, 256, vec![28, 4]),
        (32, 257, vec![27, 6]),
        (32, 432, vec![27, 27]),
        (32, 433, vec![27, 27, 1]),
        (256, 2_008, vec![251]),
        (256, 2_009, vec![251, 1]),
    ] {
        let button = Button::formatted(page_length, page_count, false);
        let pages = button.pages();
        let n = pages.geometry.number_length();
        assert_eq!(pages.page(0)[2 + n], 0);
        for (place, &length) in lengths.iter().enumerate() {
            let last = place + 1 == lengths.len();
            assert_eq!(pages.body(1 + place).len(), length);
            let next = if last { 0 } else { place + 2 };
            assert_eq!(pages.pointer(1 + place), next);
        }
        let (totals, owners) = button.check();
        assert_eq!(totals.used as usize, 1 + lengths.len());
        assert_eq!(chain_of(&owners, 1), [0]);
        let file: Vec<usize> = (1..=lengths.len()).collect();
        assert_eq!(chain_of(&owners, 2), file);
    }
}

/// Format needs no valid image before it and leaves every byte outside its packets.
#[test]
fn format_takes_any_bytes_and_keeps_those_outside_its_packets() {
    for local in [false, true] {
        let mut button = Button::zeros(33, 30);
        for (place, byte) in button.image.iter_mut().enumerate() {
            *byte = (place * 7 + place / 33) as u8;
        }
        let before = button.clone();
        assert_eq!(button.format(local).0, answer(0, 0));
        assert_eq!(button.verdict(), answer(0, 0));
        let written = [11, if local { 0 } else { 4 + 4 }];
        for page in 0..30 {
            let packet = written.get(page).copied().unwrap_or(0);
            assert_eq!(button.page(page)[packet..], before.page(page)[packet..]);
        }
    }
}

#[test]
fn any_number_but_0_asks_format_for_a_local_bitmap() {
    for local in [1, 2, 0x80, 256, 65_536, u32::MAX] {
        let mut image = vec![0; 512];
        let mut table = vec![7; 64];
        let done = agreed::format(32, 16, &mut image, &mut table, local);
        assert_eq!(done, Answer::default());
        assert_eq!(image[3], 0x80);
        assert_eq!(records(&table)[..2], [(1, 0), FREE]);
    }
}

#[test]
fn growing_directory_takes_the_lowest_free_page_before_the_file() {
    let mut pages = Pages::new(32, 8);
    let mut root = pages.local_control(&[0, 1, 2, 4, 7]);
    root.extend(pages.entry("A", 1, 1, 1));
    root.extend(pages.entry("B", 1, 2, 1));
    root.extend(pages.entry("C", 1, 4, 2));
    pages.packet(0, &root, 0).packet(1, b"", 0);
    pages.packet(2, b"", 0).packet(4, b"", 7).packet(7, b"", 0);
    let mut button = Button::from(&pages);
    // Free are 3, 5 and 6.
    assert_eq!(button.put(b"D   \x01", &[1; 57]).0, answer(17, 0));
    let (done, owners) = button.put(b"D   \x01", &[1; 56]);
    assert_eq!(done, answer(0, 0));
    assert_eq!(owners[..4], [(1, 0), (3, 0), (4, 0), (1, 1)]);
    assert_eq!(owners[4..], [(5, 0), (6, 0), (6, 1), (5, 1)]);
    assert_eq!(button.pages().pointer(0), 3);
    let entry = button.pages().entry("D", 1, 5, 2);
    assert_eq!(button.pages().body(3), entry);
}

#[test]
fn new_entry_goes_to_the_first_page_with_space_in_chain_order() {
    let mut pages = Pages::new(32, 16);
    let mut root = pages.local_control(&[0, 1, 2, 3, 4, 5]);
    for (name, start) in [("A", 3), ("B", 4), ("C", 5)] {
        root.extend(pages.entry(name, 1, start, 1));
        pages.packet(start, b"", 0);
    }
    pages
        .packet(0, &root, 2)
        .packet(2, b"", 1)
        .packet(1, b"", 0);
    let mut button = Button::from(&pages);
    for (place, name) in ["D", "E", "F", "G", "H"].iter().enumerate() {
        assert_eq!(button.put(&path(&[], name, 1), b"x").0, answer(0, 0));
        let entry = button.pages().entry(name, 1, 6 + place, 1);
        let page = if place < 4 { 2 } else { 1 };
        assert!(button.pages().body(page).ends_with(&entry));
    }
    // A gap in page 0 is filled first.
    assert_eq!(button.delete(b"A   \x01").0, answer(0, 0));
    assert_eq!(button.put(b"I   \x01", b"x").0, answer(0, 0));
    let names: Vec<u8> = button
        .list_all()
        .iter()
        .map(|listing| listing.name as u8)
        .collect();
    assert_eq!(names, *b"BCIDEFGH");
}

/// Pages of a replaced chain that are not used again keep their bytes, and so does what a shorter packet leaves.
#[test]
fn shorter_replacement_keeps_the_bytes_it_does_not_write() {
    let mut button = Button::formatted(32, 16, true);
    let long: Vec<u8> = (1..=84).collect();
    assert_eq!(button.put(b"F   \x01", &long).0, answer(0, 0));
    let before = button.clone();
    assert_eq!(button.put(b"F   \x01", b"ab").0, answer(0, 0));
    assert_eq!(button.page(1)[..4], [3, b'a', b'b', 0]);
    assert_eq!(button.page(1)[6..], before.page(1)[6..]);
    assert_eq!(button.image[64..], before.image[64..]);
    assert_eq!(button.check().0.used, 2);
}

#[test]
fn files_below_hidden_directories_are_read_and_not_edited() {
    let mut button = sample();
    let mut pages = button.pages();
    pages.alter(0, 26, &[0xFF]);
    button = Button::from(&pages);
    assert_eq!(button.list(2).0.attribute, 1);
    assert_eq!(button.list(3).0.attribute, 0);
    assert_eq!(button.read(&path(&["D"], "X", 1)), (0, b"xx".to_vec()));
    let before = button.clone();
    for new in [path(&["D"], "NEW", 1), path(&["D"], "X", 1)] {
        let (done, owners) = button.put(&new, b"n");
        assert_eq!((done, &owners[..7]), (answer(22, 0), &SAMPLE_OWNERS[..]));
    }
    let (done, owners) = button.delete(&path(&["D"], "Y", 99));
    assert_eq!((done, &owners[..7]), (answer(22, 0), &SAMPLE_OWNERS[..]));
    assert_eq!(button, before);
}

#[test]
fn file_on_all_free_pages_of_256_is_put_and_one_byte_more_is_17() {
    let mut button = Button::formatted(32, 256, false);
    let bytes: Vec<u8> = (0..28 * 253 + 1_u32).map(|byte| (byte / 3) as u8).collect();
    assert_eq!(button.put(b"ALL \x01", &bytes).0, answer(17, 0));
    let most = &bytes[..28 * 253];
    assert_eq!(button.put(b"ALL \x01", most).0, answer(0, 0));
    assert_eq!(button.list(0).0.pages, 253);
    assert_eq!(button.check().0.used, 256);
    assert_eq!(button.read(b"ALL \x01"), (0, most.to_vec()));
    assert_eq!(button.put(b"MORE\x01", b"").0, answer(17, 0));
}

#[test]
fn an_emptied_directory_page_stays() {
    let mut button = Button::formatted(32, 16, true);
    for name in ["A", "B", "C", "D"] {
        assert_eq!(button.put(&path(&[], name, 1), b"x").0, answer(0, 0));
    }
    // D's entry is alone on page 4.
    assert_eq!(button.delete(b"D   \x01").0, answer(0, 0));
    assert_eq!(button.pages().body(4), b"");
    assert_eq!(button.pages().pointer(0), 4);
    assert_eq!(button.check().0.used, 5);
    assert_eq!(button.put(b"D   \x01", b"x").0, answer(0, 0));
    // Entries of later pages do not move up, those of the same page do.
    assert_eq!(button.delete(b"A   \x01").0, answer(0, 0));
    let body = button.pages().body(0);
    let mut kept = button.pages().entry("B", 1, 2, 1);
    kept.extend(button.pages().entry("C", 1, 3, 1));
    assert_eq!(body[7..], kept);
    assert_eq!(button.pages().body(4).len(), 7);
}

#[test]
fn a_replaced_entry_keeps_its_place() {
    let mut button = Button::formatted(32, 16, true);
    for name in ["A", "B", "C"] {
        assert_eq!(button.put(&path(&[], name, 1), b"x").0, answer(0, 0));
    }
    let before = button.pages().body(0);
    assert_eq!(button.put(b"B   \x01", &[7; 60]).0, answer(0, 0));
    let after = button.pages().body(0);
    assert_eq!(after[7..14], before[7..14]);
    assert_eq!(after[14..21], button.pages().entry("B", 1, 2, 3));
    assert_eq!(after[21..], before[21..]);
    let owners = button.check().1;
    assert_eq!(owners[..4], [(1, 0), (3, 0), (4, 0), (5, 0)]);
    assert_eq!(owners[4..7], [(4, 1), (4, 2), FREE]);
}

/// A bitmap file keeps its packets' lengths, also empty ones, and only changes bits.
#[test]
fn bitmap_file_keeps_the_lengths_of_its_packets() {
    let mut pages = Pages::new(32, 40);
    let root = pages.file_control(9, 5);
    pages.packet(0, &root, 0);
    let layout = [(9, 0, 5), (5, 1, 7), (7, 2, 6), (6, 0, 8), (8, 2, 0)];
    let bits = [0xE1, 0x03, 0, 0, 0];
    let mut done = 0;
    for (page, length, next) in layout {
        pages.packet(page, &bits[done..done + length], next);
        done += length;
    }
    let mut button = Button::from(&pages);
    assert_eq!(button.verdict(), answer(0, 0));
    let large = vec![3; 28 * 30];
    assert_eq!(button.put(b"F   \x01", &large).0, answer(0, 0));
    let after = button.pages();
    for (page, length, next) in layout {
        assert_eq!(
            (after.body(page).len(), after.pointer(page)),
            (length, next)
        );
    }
    assert_eq!(after.body(5), [0xFF]);
    assert_eq!(after.body(7), [0xFF, 0xFF]);
    assert_eq!(after.body(8), [0xFF, 0x0F]);
    assert_eq!(button.delete(b"F   \x01").0, answer(0, 0));
    let after = button.pages();
    assert_eq!(after.body(5), [0xE1]);
    assert_eq!(after.body(7), [0x03, 0x00]);
    assert_eq!(after.body(8), [0x00, 0x00]);
}

/// A file that is put has its top bit clear, and packets that are full but the last.
#[test]
fn put_fills_all_packets_but_the_last_and_clears_the_top_bit() {
    for (page_length, page_count) in [(32, 100), (33, 300), (256, 300), (256, 40)] {
        let most = Button::zeros(page_length, page_count)
            .pages()
            .geometry
            .max_data();
        for length in [0, 1, most - 1, most, most + 1, 2 * most, 3 * most + 2] {
            let mut button = Button::formatted(page_length, page_count, false);
            let bytes: Vec<u8> = (0..length).map(|byte| byte as u8).collect();
            assert_eq!(button.put(b"F   \x63", &bytes).0, answer(0, 0));
            let listing = button.list(0).0;
            assert_eq!((listing.attribute, listing.extension), (0, 99));
            let count = length.div_ceil(most).max(1);
            assert_eq!(listing.pages as usize, count);
            let pages = button.pages();
            for place in 0..count {
                let page = listing.start as usize + place;
                let part = length.saturating_sub(place * most).min(most);
                assert_eq!(pages.body(page).len(), part);
            }
        }
    }
}

/// Two pages only: with a local bitmap one page is free, with a bitmap file none.
#[test]
fn image_of_two_pages_has_room_for_one_page_or_none() {
    let mut button = Button::formatted(32, 2, true);
    assert_eq!(button.put(b"A   \x01", &[1; 29]).0, answer(17, 0));
    assert_eq!(button.put(b"A   \x01", &[1; 28]).0, answer(0, 0));
    assert_eq!(button.put(b"B   \x01", b"").0, answer(17, 0));
    assert_eq!(button.put(b"A   \x01", &[2; 28]).0, answer(0, 0));
    assert_eq!(button.delete(b"A   \x01").0, answer(0, 0));
    let mut button = Button::formatted(32, 2, false);
    assert_eq!(button.put(b"A   \x01", b"").0, answer(17, 0));
}

/// A put that needs a directory page as well as the file's pages.
#[test]
fn put_needs_room_for_the_page_that_joins_the_directory() {
    let mut button = Button::formatted(32, 6, true);
    for name in ["A", "B", "C"] {
        assert_eq!(button.put(&path(&[], name, 1), b"x").0, answer(0, 0));
    }
    assert_eq!(button.put(b"D   \x01", &[1; 29]).0, answer(17, 0));
    assert_eq!(button.put(b"D   \x01", &[1; 28]).0, answer(0, 0));
    assert_eq!(button.check().0.used, 6);
    // An entry has space now, but no page is left.
    assert_eq!(button.put(b"E   \x01", b"").0, answer(17, 0));
    assert_eq!(button.delete(b"D   \x01").0, answer(0, 0));
    assert_eq!(button.put(b"E   \x01", &[1; 29]).0, answer(17, 0));
    assert_eq!(button.put(b"E   \x01", &[1; 28]).0, answer(0, 0));
}
