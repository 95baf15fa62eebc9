//! The page writes of careful puts and deletes on images made by hand: which pages, in which order, how many, and what stands in them.
//!
//! Programs: the library and the second program. Each call is made by both; every answer and every lent byte is compared.
//! The archive is made by `tools/build`.

use common::stops::{pages_written, Edit};
use common::{all_free, answer, chain_of, mended, no_writes, writes, Button, FREE};
use referee::builder::pages::{path, Pages};
use referee::rng::Rng;

/// A button of 16 pages of 32 bytes with the bitmap in page 0 or in page 1.
fn formatted(local: bool) -> Button {
    Button::formatted(32, 16, local)
}

/// The button after a put.
fn with_file(mut button: Button, path: &[u8], bytes: &[u8]) -> Button {
    assert_eq!(button.put(path, bytes).0, answer(0, 0));
    button
}

/// The pages that a careful put writes.
fn put_order(button: &Button, path: &[u8], bytes: &[u8]) -> Vec<usize> {
    pages_written(button, path, &Edit::Put(bytes.to_vec()), &mut Rng::new(1))
}

/// The pages that a careful delete writes.
fn delete_order(button: &Button, path: &[u8]) -> Vec<usize> {
    pages_written(button, path, &Edit::Delete, &mut Rng::new(1))
}

/// A path in the root.
fn file(name: &str) -> Vec<u8> {
    path(&[], name, 1)
}

/// Document 01's cases 2 and 3 in three writes: marks, file, entry.
#[test]
fn a_new_file_takes_three_writes_with_known_bytes() {
    let demo = path(&[], "DEMO", 12);
    let mut button = formatted(true);
    assert_eq!(put_order(&button, &demo, b"TEST"), [0, 1, 0]);

    assert_eq!(button.careful_put(&demo, b"TEST", 1).0, writes(1, true));
    let marked = [0x08, 0xAA, 0, 0x80, 0x03, 0, 0, 0, 0];
    assert_eq!(button.page(0)[..9], marked);
    assert!(button.page(1).iter().all(|&byte| byte == 0));
    assert_eq!(button.verdict(), answer(13, 1));

    let mut button = formatted(true);
    assert_eq!(button.careful_put(&demo, b"TEST", 2).0, writes(2, true));
    assert_eq!(button.page(0)[..9], marked);
    let test = [0x05, 0x54, 0x45, 0x53, 0x54, 0x00, 0x14, 0x6A];
    assert_eq!(button.page(1)[..8], test);
    assert_eq!(button.verdict(), answer(13, 1));
    assert_eq!(button.read(&demo).0, 13);

    let mut button = formatted(true);
    assert_eq!(button.careful_put(&demo, b"TEST", 3).0, writes(3, false));
    let root = [
        0x0F, 0xAA, 0, 0x80, 0x03, 0, 0, 0, 0x44, 0x45, 0x4D, 0x4F, 0x0C, 0x01, 0x01, 0, 0x73, 0xA5,
    ];
    assert_eq!(button.page(0)[..18], root);
    assert_eq!(button.page(1)[..8], test);
    assert_eq!(button, with_file(formatted(true), &demo, b"TEST"));
}

#[test]
fn writes_left_are_told_by_the_number_allowed() {
    for (allowed, told) in [
        (0, writes(0, true)),
        (1, writes(1, true)),
        (2, writes(2, true)),
        (3, writes(3, false)),
        (4, writes(3, false)),
        (65_536, writes(3, false)),
        (u32::MAX, writes(3, false)),
    ] {
        let mut button = formatted(true);
        let (put, owners) = button.careful_put(&file("A"), b"a", allowed);
        assert_eq!(put, told);
        let known = match allowed {
            0 => [(1, 0), FREE, FREE],
            1 | 2 => [FREE, FREE, FREE],
            _ => [(1, 0), (3, 0), FREE],
        };
        assert_eq!(owners[..3], known);
    }
}

/// The new chain has no page of the old one, which is released last.
#[test]
fn a_replaced_file_is_released_last() {
    let button = with_file(formatted(true), &file("A"), b"old");
    let new = [7; 30];
    assert_eq!(put_order(&button, &file("A"), &new), [0, 2, 3, 0, 0]);
    let mut stopped = button.clone();
    assert_eq!(stopped.careful_put(&file("A"), &new, 4).0, writes(4, true));
    assert_eq!(stopped.verdict(), answer(13, 1));
    assert_eq!(stopped.mend().0, mended(1));
    assert_eq!(stopped.read(&file("A")), (0, new.to_vec()));
    let mut whole = button.clone();
    let (told, owners) = whole.careful_put(&file("A"), &new, u32::MAX);
    assert_eq!(told, writes(5, false));
    assert_eq!(owners[..5], [(1, 0), FREE, (3, 0), (3, 1), FREE]);
    // The old page keeps its bytes.
    assert_eq!(whole.page(1), button.page(1));
    assert_eq!(whole, stopped);
}

/// The directory's new page has the lower number and is written after the file's pages.
#[test]
fn a_directory_grows_after_the_files_pages() {
    let mut button = formatted(true);
    for name in ["A", "B", "C"] {
        button = with_file(button, &file(name), b"x");
    }
    assert_eq!(put_order(&button, &file("D"), &[1; 29]), [0, 5, 6, 4, 0]);
    let mut stopped = button.clone();
    assert_eq!(
        stopped.careful_put(&file("D"), &[1; 29], 4).0,
        writes(4, true)
    );
    assert_eq!(stopped.verdict(), answer(13, 4));
    assert_eq!(stopped.mend().0, mended(3));
    assert_eq!(stopped.read(&file("D")).0, 15);
    assert_eq!(stopped.list_all().len(), 3);
    // Once more: the three pages hold their packets, so marks and the visible page are all that is written.
    assert_eq!(put_order(&stopped, &file("D"), &[1; 29]), [0, 0]);
    let (told, owners) = stopped.careful_put(&file("D"), &[1; 29], 2);
    assert_eq!(told, writes(2, false));
    assert_eq!(owners[..4], [(1, 0), (3, 0), (4, 0), (5, 0)]);
    assert_eq!(owners[4..8], [(1, 1), (6, 0), (6, 1), FREE]);
    // The entry on the new page comes after those of the first page.
    assert_eq!(stopped.list_all()[3].start, 5);
}

/// A file that was put and deleted leaves its packet: the put again writes two pages, and three if the packet differs in anything.
#[test]
fn a_page_with_its_packet_is_not_written() {
    let mut button = with_file(formatted(true), &file("A"), b"same");
    assert_eq!(button.delete(&file("A")).0, answer(0, 0));
    assert_eq!(put_order(&button, &file("A"), b"same"), [0, 0]);
    assert_eq!(put_order(&button, &file("B"), b"same"), [0, 0]);
    assert_eq!(put_order(&button, &file("A"), b"Same"), [0, 1, 0]);
    assert_eq!(put_order(&button, &file("A"), b"sam"), [0, 1, 0]);
    let mut pages = button.pages();
    // Bytes after the packet do not matter, and stay.
    pages.page_mut(1)[31] = 0x5A;
    let mut other = Button::from(&pages);
    assert_eq!(put_order(&other, &file("A"), b"same"), [0, 0]);
    assert_eq!(
        other.careful_put(&file("A"), b"same", 2).0,
        writes(2, false)
    );
    assert_eq!(other.page(1)[31], 0x5A);
    // Another check or another pointer does.
    let mut pages = button.pages();
    let other = Button::from(pages.break_check(1));
    assert_eq!(put_order(&other, &file("A"), b"same"), [0, 1, 0]);
    let mut pages = button.pages();
    let other = Button::from(pages.set_pointer(1, 5));
    assert_eq!(put_order(&other, &file("A"), b"same"), [0, 1, 0]);
}

/// The packet of a page stands there with a longer length byte, or one that no packet has.
#[test]
fn a_page_with_another_length_is_written() {
    let mut button = with_file(formatted(true), &file("A"), b"same");
    assert_eq!(button.delete(&file("A")).0, answer(0, 0));
    for length in [0, 4, 6, 29, 30, 255] {
        let mut pages = button.pages();
        pages.page_mut(1)[0] = length;
        let other = Button::from(&pages);
        assert_eq!(put_order(&other, &file("A"), b"same"), [0, 1, 0]);
    }
}

#[test]
fn a_delete_writes_the_directory_page_first() {
    let button = with_file(formatted(true), &file("A"), &[3; 60]);
    assert_eq!(delete_order(&button, &file("A")), [0, 0]);
    let mut stopped = button.clone();
    let (told, owners) = stopped.careful_delete(&file("A"), 1);
    assert_eq!(told, writes(1, true));
    assert!(all_free(&owners));
    assert_eq!(stopped.verdict(), answer(13, 1));
    let (told, owners) = stopped.mend();
    assert_eq!(told, mended(3));
    assert_eq!(owners[..4], [(1, 0), FREE, FREE, FREE]);
    let mut whole = button.clone();
    assert_eq!(whole.careful_delete(&file("A"), 2).0, writes(2, false));
    assert_eq!(whole, stopped);
    let mut plain = button.clone();
    assert_eq!(plain.delete(&file("A")).0, answer(0, 0));
    assert_eq!(whole, plain);
    let (told, owners) = button.clone().careful_delete(&file("A"), 0);
    assert_eq!(told, writes(0, true));
    assert_eq!(owners[..4], [(1, 0), (3, 0), (3, 1), (3, 2)]);
}

/// A directory D at page 3 with X.1 at page 4; a bitmap file on pages 9 and 4 or 5, in this order, of one byte each.
fn nested(bitmap_file: bool) -> Button {
    let mut pages = Pages::new(32, 16);
    let mut root = if bitmap_file {
        pages.packet(9, &[0b0011_1001], 5);
        pages.packet(5, &[0b0000_0010], 0);
        pages.file_control(9, 2)
    } else {
        pages.local_control(&[0, 3, 4])
    };
    root.extend(pages.entry("D", 0x7F, 3, 0));
    let mut sub = pages.sub_control("ROOT", 0);
    sub.extend(pages.entry("X", 1, 4, 1));
    pages.packet(0, &root, 0).packet(3, &sub, 0);
    pages.packet(4, b"xx", 0);
    Button::from(&pages)
}

#[test]
fn a_nested_target_is_written_between_marks_and_releases() {
    let button = nested(false);
    let new = path(&["D"], "NEW", 1);
    let old = path(&["D"], "X", 1);
    assert_eq!(put_order(&button, &new, b"n"), [0, 1, 3]);
    assert_eq!(put_order(&button, &new, &[1; 57]), [0, 1, 2, 5, 3]);
    assert_eq!(put_order(&button, &old, b"n"), [0, 1, 3, 0]);
    assert_eq!(delete_order(&button, &old), [3, 0]);
}

/// Bitmap pages go in chain order, here from page 9 to page 5, and only those whose bits change.
#[test]
fn a_bitmap_files_pages_are_written_in_chain_order() {
    let button = nested(true);
    assert_eq!(button.verdict(), answer(0, 0));
    let new = path(&["D"], "NEW", 1);
    let old = path(&["D"], "X", 1);
    // Free are 1, 2, 6, 7 and 8, 10 to 15.
    assert_eq!(put_order(&button, &new, b"n"), [9, 1, 3]);
    assert_eq!(
        put_order(&button, &new, &[1; 28 * 4 + 1]),
        [9, 5, 1, 2, 6, 7, 8, 3]
    );
    assert_eq!(
        put_order(&button, &old, &[1; 28 * 4 + 1]),
        [9, 5, 1, 2, 6, 7, 8, 3, 9]
    );
    assert_eq!(put_order(&button, &old, b"n"), [9, 1, 3, 9]);
    assert_eq!(delete_order(&button, &old), [3, 9]);
    // A file over both bitmap pages is released in chain order too.
    let both = with_file(button, &new, &[1; 28 * 4 + 1]);
    assert_eq!(delete_order(&both, &new), [3, 9, 5]);
    assert_eq!(put_order(&both, &new, b""), [5, 10, 3, 9, 5]);
}

/// Case 7 of document 01, with the old chain not free.
#[test]
fn no_room_is_counted_without_the_old_chain() {
    let most = vec![9; 420];
    let mut button = formatted(true);
    let mut order = vec![0];
    order.extend(1..16);
    order.push(0);
    assert_eq!(put_order(&button, &file("A"), &most), order);
    let more = vec![9; 421];
    assert_eq!(
        button.clone().careful_put(&file("A"), &more, 99).0,
        no_writes(17, 0)
    );
    button = with_file(button, &file("A"), &most);
    for bytes in [&most[..], &[], b"x"] {
        for allowed in [0, 1, u32::MAX] {
            let (told, owners) = button.clone().careful_put(&file("A"), bytes, allowed);
            assert_eq!(told, no_writes(17, 0));
            assert_eq!((owners.len(), owners[0]), (16, (1, 0)));
            assert_eq!(chain_of(&owners, 3), (1..16).collect::<Vec<usize>>());
        }
        assert_eq!(button.clone().put(&file("A"), bytes).0, answer(0, 0));
    }
    // Seven pages of fifteen: seven more are free, eight are not.
    let half = with_file(formatted(true), &file("A"), &[1; 28 * 7]);
    let mut done = half.clone();
    assert_eq!(
        done.careful_put(&file("A"), &[2; 28 * 8], 99).0,
        writes(11, false)
    );
    assert_eq!(
        half.clone().careful_put(&file("A"), &[2; 28 * 8 + 1], 99).0,
        no_writes(17, 0)
    );
}

/// A full directory needs a page besides the file's.
#[test]
fn no_room_counts_the_page_that_joins_a_directory() {
    let mut button = formatted(true);
    for name in ["A", "B"] {
        button = with_file(button, &file(name), b"");
    }
    button = with_file(button, &file("C"), &[0; 28 * 12]);
    // One page is free: it would do for the directory or for the file.
    assert_eq!(
        button.clone().careful_put(&file("D"), b"", 9).0,
        no_writes(17, 0)
    );
    assert_eq!(
        button.clone().careful_put(&file("A"), b"new", 9).0,
        writes(4, false)
    );
    assert_eq!(button.careful_delete(&file("B"), 9).0, writes(2, false));
    // Its entry's place is free again, and two pages are.
    assert_eq!(put_order(&button, &file("D"), &[5; 56]), [0, 2, 15, 0]);
}

/// A stopped image is refused with 13 until it is mended, by the careful calls too.
#[test]
fn a_stopped_image_is_mended_first() {
    let mut button = formatted(true);
    assert_eq!(button.careful_put(&file("A"), b"a", 1).0, writes(1, true));
    let refused = no_writes(13, 1);
    for allowed in [0, 1, u32::MAX] {
        assert_eq!(
            button.clone().careful_put(&file("A"), b"a", allowed).0,
            refused
        );
        assert_eq!(
            button.clone().careful_delete(&file("A"), allowed).0,
            refused
        );
    }
    assert_eq!(button.put(&file("A"), b"a").0, answer(13, 1));
    assert_eq!(button.mend().0, mended(1));
    assert_eq!(button, formatted(true));
    assert_eq!(button.mend().0, mended(0));
    assert_eq!(button.careful_put(&file("A"), b"a", 3).0, writes(3, false));
}

/// With a bitmap file the root is written once for an entry.
#[test]
fn a_bitmap_file_keeps_the_root_for_the_entry() {
    let button = formatted(false);
    assert_eq!(put_order(&button, &file("A"), b"a"), [1, 2, 0]);
    let button = with_file(button, &file("A"), b"a");
    assert_eq!(put_order(&button, &file("A"), b"b"), [1, 3, 0, 1]);
    assert_eq!(delete_order(&button, &file("A")), [0, 1]);
}

/// A stamp with this first byte; its other bytes look like an entry of a file on page 1.
fn stamp(first: u8) -> [u8; 7] {
    [first, b'A', b' ', b' ', 1, 1, 1]
}

/// A root on page 0 that two stamps and the entry of A.1, on page 1, fill.
fn stamped() -> Button {
    let mut pages = Pages::new(32, 16);
    let root = [
        pages.local_control(&[0, 1]),
        stamp(0x80).to_vec(),
        stamp(0xC1).to_vec(),
        pages.entry("A", 1, 1, 1),
    ];
    pages.packet(0, &root.concat(), 0).packet(1, b"a", 0);
    Button::from(&pages)
}

/// The slots of a root's first page with a local bitmap.
fn root_slots(button: &Button) -> Vec<u8> {
    button.pages().body(0)[7..].to_vec()
}

/// A file that has stamps is replaced in the order of any other. Its stamps stand before it after every write.
#[test]
fn a_replaced_file_has_its_stamps_after_every_write() {
    let button = stamped();
    let stamps = [stamp(0x80), stamp(0xC1)].concat();
    assert_eq!(put_order(&button, &file("A"), &[7; 30]), [0, 2, 3, 0, 0]);
    for allowed in 0..=5 {
        let mut stopped = button.clone();
        let told = stopped.careful_put(&file("A"), &[7; 30], allowed).0;
        assert_eq!(told, writes(allowed, allowed < 5));
        let entry = match allowed {
            0..=3 => stopped.pages().entry("A", 1, 1, 1),
            _ => stopped.pages().entry("A", 1, 2, 2),
        };
        assert_eq!(root_slots(&stopped), [stamps.clone(), entry].concat());
        let marks = [0, 2, 2, 2, 1, 0][allowed as usize];
        assert_eq!(stopped.mend().0, mended(marks));
        let bytes = match allowed {
            0..=3 => b"a".to_vec(),
            _ => vec![7; 30],
        };
        assert_eq!(stopped.read(&file("A")), (0, bytes));
    }
}

/// The one write of the directory page takes away the entry and its stamps.
#[test]
fn a_deleted_file_and_its_stamps_go_by_one_write() {
    let button = stamped();
    assert_eq!(delete_order(&button, &file("A")), [0, 0]);
    for (allowed, slots, marks) in [(0, 21, 0), (1, 0, 1), (2, 0, 0)] {
        let mut stopped = button.clone();
        let told = stopped.careful_delete(&file("A"), allowed).0;
        assert_eq!(told, writes(allowed, allowed < 2));
        assert_eq!(root_slots(&stopped).len(), slots);
        assert_eq!(stopped.mend().0, mended(marks));
    }
}

/// A page that is full because of stamps: the directory's new page holds the entry and is written after the file's pages.
#[test]
fn a_directory_full_because_of_stamps_grows_after_the_files_pages() {
    let button = stamped();
    assert_eq!(put_order(&button, &file("D"), &[1; 29]), [0, 3, 4, 2, 0]);
    for allowed in 0..=5 {
        let mut stopped = button.clone();
        let told = stopped.careful_put(&file("D"), &[1; 29], allowed).0;
        assert_eq!(told, writes(allowed, allowed < 5));
        assert_eq!(root_slots(&stopped), root_slots(&button));
        let marks = if (1..5).contains(&allowed) { 3 } else { 0 };
        let (told, owners) = stopped.mend();
        assert_eq!(told, mended(marks));
        assert_eq!(stopped.list_all().len(), 1 + usize::from(allowed == 5));
        let root = if allowed == 5 { vec![0, 2] } else { vec![0] };
        assert_eq!(chain_of(&owners, 1), root);
    }
}

/// Stamps before a subdirectory's entry and in the subdirectory, with a bitmap file.
#[test]
fn a_nested_target_with_stamps_is_written_between_marks_and_releases() {
    let mut pages = nested(true).pages();
    let root = [
        pages.file_control(9, 2),
        stamp(0x81).to_vec(),
        stamp(0x82).to_vec(),
        pages.entry("D", 0x7F, 3, 0),
    ];
    let sub = [
        pages.sub_control("ROOT", 0),
        stamp(0x83).to_vec(),
        pages.entry("X", 1, 4, 1),
    ];
    pages.packet(0, &root.concat(), 0);
    let button = Button::from(pages.packet(3, &sub.concat(), 0));
    assert_eq!(button.verdict(), answer(0, 0));
    let (new, old) = (path(&["D"], "NEW", 1), path(&["D"], "X", 1));
    assert_eq!(put_order(&button, &new, b"n"), [9, 1, 3]);
    assert_eq!(put_order(&button, &old, b"n"), [9, 1, 3, 9]);
    assert_eq!(delete_order(&button, &old), [3, 9]);
    // The page of D is full with NEW, its third slot: the next file needs another page.
    let full = with_file(button, &new, b"n");
    assert_eq!(
        put_order(&full, &path(&["D"], "MORE", 1), b"m"),
        [9, 6, 2, 3]
    );
}

/// Two-byte page numbers: 300 pages of 32 bytes with a bitmap of 38 bytes on two pages.
#[test]
fn two_byte_page_numbers_have_their_bitmap_pages_in_order() {
    let button = Button::formatted(32, 300, false);
    let filled = with_file(button.clone(), &file("A"), &vec![1; 27 * 212]);
    // Pages 0 to 2 and 3 to 214 are in use; the first bitmap page has the bits of pages 0 to 215.
    assert_eq!(put_order(&filled, &file("B"), b"b"), [1, 215, 0]);
    assert_eq!(
        put_order(&filled, &file("B"), &[1; 28]),
        [1, 2, 215, 216, 0]
    );
    let both = with_file(filled, &file("B"), &[1; 28]);
    assert_eq!(
        put_order(&both, &file("B"), &[2; 28]),
        [2, 217, 218, 0, 1, 2]
    );
    assert_eq!(delete_order(&both, &file("B")), [0, 1, 2]);
}
