//! Each fault of an image and the order in which faults are met, on images made by hand. P is 32 and N is 16 unless said.
//!
//! Programs: the library and the second program. Each call is made by both; every answer and every lent byte is compared.
//! The archive is made by `tools/build`.

use common::{answer, Button};
use referee::builder::pages::Pages;

/// Demands a refusal from every call that checks the image.
fn refused(pages: &Pages, number: u32, page: u32) {
    Button::from(pages).refused_by_all(number, page);
}

/// Demands that the image is accepted.
fn accepted(pages: &Pages) {
    assert_eq!(Button::from(pages).verdict(), answer(0, 0));
}

/// An image of 16 pages whose root has a local bitmap with these pages marked, and these entries.
fn local(marked: &[usize], entries: &[(&str, u8, usize, usize)]) -> Pages {
    let mut pages = Pages::new(32, 16);
    let mut root = pages.local_control(marked);
    for &(name, extension, start, count) in entries {
        root.extend(pages.entry(name, extension, start, count));
    }
    pages.packet(0, &root, 0);
    pages
}

/// An image of 16 pages with root and bitmap file on page 1, and these bytes after the root's control field.
fn with_bitmap_file(bits: &[u8], stray: &[u8]) -> Pages {
    let mut pages = Pages::new(32, 16);
    let mut root = pages.file_control(1, 1);
    root.extend_from_slice(stray);
    pages.packet(0, &root, 0).packet(1, bits, 0);
    pages
}

/// The body of a subdirectory's first page with these entries.
fn sub(pages: &Pages, parent: &str, start: usize, entries: &[(&str, u8, usize, usize)]) -> Vec<u8> {
    let mut body = pages.sub_control(parent, start);
    for &(name, extension, start, count) in entries {
        body.extend(pages.entry(name, extension, start, count));
    }
    body
}

// Number 2: packet length or check.

#[test]
fn packet_length_outside_1_to_29_on_page_0_is_2() {
    let sound = local(&[0], &[]);
    for length in 0..=255_u8 {
        let mut pages = sound.clone();
        pages.page_mut(0)[0] = length;
        if length <= 29 {
            pages.seal(0);
        }
        let expected = match length {
            0 | 30.. => answer(2, 0),
            1..=7 => answer(4, 0),
            8 => answer(0, 0),
            15 | 22 | 29 => answer(9, 0),
            _ => answer(8, 0),
        };
        assert_eq!(Button::from(&pages).verdict(), expected, "length {length}");
    }
}

#[test]
fn packet_length_outside_its_limits_on_a_file_page_is_2() {
    for (page_length, page_count, n) in [(32, 16, 1), (256, 16, 1), (32, 300, 2), (256, 300, 2)] {
        let button = {
            let mut button = Button::formatted(page_length, page_count, false);
            assert_eq!(button.put(b"F   \x00", b"x").0, answer(0, 0));
            button
        };
        let start = button.list(0).0.start as usize;
        for length in [
            0,
            n - 1,
            n,
            page_length - 3,
            page_length - 2,
            page_length - 1,
        ] {
            let mut pages = button.pages();
            let bytes = pages.page_mut(start);
            bytes.fill(0);
            bytes[0] = length as u8;
            if length <= page_length - 3 {
                pages.seal(start);
            }
            let sound = (n..=page_length - 3).contains(&length);
            let expected = if sound {
                answer(0, 0)
            } else {
                answer(2, start as u32)
            };
            assert_eq!(Button::from(&pages).verdict(), expected);
        }
    }
}

#[test]
fn every_flipped_bit_of_a_packet_is_2() {
    let mut sound = local(&[0, 1, 2], &[("A", 1, 1, 2)]);
    sound.packet(1, b"abc", 2).packet(2, b"", 0);
    accepted(&sound);
    for (page, packet) in [(0, 17), (1, 7), (2, 4)] {
        for byte in 0..packet {
            for bit in 0..8 {
                let mut pages = sound.clone();
                pages.page_mut(page)[byte] ^= 1 << bit;
                let verdict = Button::from(&pages).verdict();
                assert_eq!(verdict, answer(2, page as u32), "{page} {byte} {bit}");
            }
        }
    }
}

#[test]
fn bytes_outside_packets_may_be_any() {
    let mut pages = local(&[0, 1], &[("A", 1, 1, 1)]);
    pages.packet(1, b"abc", 0);
    pages.page_mut(0)[18..].fill(0xDD);
    pages.page_mut(1)[7..].fill(0xDD);
    pages.page_mut(2).fill(0xDD);
    accepted(&pages);
}

/// The check starts with the page number: a packet copied from another page is 2.
#[test]
fn packet_copied_from_another_page_is_2() {
    let mut pages = local(&[0, 1, 2], &[("A", 1, 1, 1), ("B", 1, 2, 1)]);
    pages.packet(1, b"abc", 0).packet(2, b"abc", 0);
    accepted(&pages);
    let copy = pages.page(1).to_vec();
    pages.page_mut(2).copy_from_slice(&copy);
    refused(&pages, 2, 2);
}

#[test]
fn first_broken_page_in_the_order_of_the_check_is_told() {
    let mut sound = Pages::new(32, 16);
    let mut root = sound.file_control(1, 2);
    root.extend(sound.entry("D", 0x7F, 4, 0));
    root.extend(sound.entry("F", 7, 6, 2));
    let directory = sub(&sound, "ROOT", 0, &[]);
    sound.packet(0, &root, 3).packet(3, b"", 0);
    sound.packet(1, &[0xFF], 2).packet(2, &[0], 0);
    sound.packet(4, &directory, 5).packet(5, b"", 0);
    sound.packet(6, b"x", 7).packet(7, b"y", 0);
    accepted(&sound);
    for page in 0..8 {
        let mut pages = sound.clone();
        pages.break_check(page);
        refused(&pages, 2, page as u32);
    }
    // The pages are numbered in the order in which the check meets them: the first broken one is told.
    for first in 0..8 {
        let mut pages = sound.clone();
        for page in first..8 {
            pages.break_check(page);
        }
        refused(&pages, 2, first as u32);
    }
}

#[test]
fn blank_image_is_2() {
    for byte in [0x00, 0xFF] {
        let mut pages = Pages::new(32, 16);
        pages.image.fill(byte);
        refused(&pages, 2, 0);
    }
}

// Numbers 3, 4 and 5: control fields.

#[test]
fn another_marker_of_the_root_is_3() {
    for marker in 0..=255_u8 {
        let mut pages = local(&[0], &[]);
        pages.alter(0, 1, &[marker]);
        let expected = if marker == 0xAA {
            answer(0, 0)
        } else {
            answer(3, 0)
        };
        assert_eq!(Button::from(&pages).verdict(), expected);
    }
    let mut pages = Pages::new(32, 300);
    let root = pages.file_control(1, 2);
    let bits = [0; 38];
    pages.packet(0, &root, 0);
    pages.packet(1, &bits[..27], 2).packet(2, &bits[27..], 0);
    refused(&pages, 13, 0);
    for marker in [0xAA, 0xBA, 0xBB, 0x00] {
        pages.alter(0, 1, &[marker]);
        refused(&pages, 3, 0);
    }
}

#[test]
fn another_marker_of_a_subdirectory_is_3() {
    for marker in [0xAB, 0xBA, 0xBB, 0x00, 0xFF] {
        let mut pages = local(&[0, 2], &[("D", 0x7F, 2, 0)]);
        let body = sub(&pages, "ROOT", 0, &[]);
        pages.packet(2, &body, 0);
        accepted(&pages);
        pages.alter(2, 1, &[marker]);
        refused(&pages, 3, 2);
    }
}

#[test]
fn pointer_is_not_part_of_the_control_field() {
    let mut pages = Pages::new(32, 16);
    pages.packet(0, &[0xAA, 0, 0x80, 1, 0, 0], 0);
    assert_eq!(pages.page(0)[..8], [7, 0xAA, 0, 0x80, 1, 0, 0, 0]);
    refused(&pages, 4, 0);
}

#[test]
fn control_field_too_short_comes_before_its_marker() {
    let mut pages = Pages::new(32, 16);
    for body in [&b""[..], &[0xBB], &[0xAA], &[0xBB, 0, 0x81, 0, 0, 0]] {
        pages.packet(0, body, 0);
        refused(&pages, 4, 0);
    }
    pages.packet(0, &[0xBB, 0, 0x81, 0, 0, 0, 0], 0);
    refused(&pages, 3, 0);
}

#[test]
fn bitmap_start_of_0_or_past_the_last_page_is_6() {
    let mut pages = Pages::new(32, 16);
    for start in [0, 16, 17, 99, 255] {
        let root = pages.file_control(start, 1);
        pages.packet(0, &root, 0);
        refused(&pages, 6, 0);
    }
    for four in [[0, 1, 0, 0], [1, 0, 0, 0], [0, 1, 1, 1], [1, 0, 99, 1]] {
        let mut root = vec![0xAA, 0, 0];
        root.extend(four);
        pages.packet(0, &root, 0);
        refused(&pages, 4, 0);
    }
}

#[test]
fn in_progress_comes_after_the_marker_and_before_the_rest() {
    let mut pages = Pages::new(32, 16);
    pages.packet(0, &[0xAA, 1, 0x83, 1, 0, 0, 0], 0);
    refused(&pages, 5, 0);
    pages.packet(0, &[0xAA, 0, 0x81, 1, 0, 0, 0], 0);
    refused(&pages, 5, 0);
    pages.packet(0, &[0xAA, 0, 0x01, 9, 9, 99, 0], 0);
    refused(&pages, 5, 0);
    pages.packet(0, &[0xAB, 0, 0x01, 9, 9, 99, 0], 0);
    refused(&pages, 3, 0);
    let mut pages = Pages::new(32, 33);
    pages.packet(0, &[0xAA, 0, 0x81, 1, 0, 0, 0], 0);
    refused(&pages, 5, 0);
    pages.packet(0, &[0xAA, 0, 0x80, 1, 0, 0, 0], 0);
    refused(&pages, 4, 0);
}

#[test]
fn map_address_and_bits_1_to_6_of_the_root_must_be_zero() {
    let mut pages = Pages::new(32, 16);
    for map_address in [1, 16, 255] {
        pages.packet(0, &[0xAA, map_address, 0x80, 1, 0, 0, 0], 0);
        refused(&pages, 4, 0);
    }
    for bit in 1..7 {
        for control in [0x80 | 1 << bit, 1 << bit] {
            pages.packet(0, &[0xAA, 0, control, 1, 0, 0, 0], 0);
            refused(&pages, 4, 0);
        }
    }
    let mut pages = Pages::new(32, 300);
    for map_address in [[1, 0], [0, 1], [255, 255]] {
        let mut root = pages.file_control(1, 2);
        root[1..3].copy_from_slice(&map_address);
        pages.packet(0, &root, 0);
        refused(&pages, 4, 0);
    }
}

#[test]
fn local_bitmap_with_more_than_32_pages_is_4() {
    for page_count in [33, 34, 40, 255, 256, 257, 1_000] {
        let mut pages = Pages::new(32, page_count);
        let root = pages.local_control(&[0]);
        pages.packet(0, &root, 0);
        refused(&pages, 4, 0);
    }
    for page_count in [2, 16, 31, 32] {
        let mut pages = Pages::new(32, page_count);
        let root = pages.local_control(&[0]);
        pages.packet(0, &root, 0);
        accepted(&pages);
    }
}

#[test]
fn bit_1_is_4_and_markers_of_several_devices_are_3() {
    let mut pages = Pages::new(32, 16);
    pages.packet(0, &[0xAA, 0, 0x82, 1, 0, 0, 0], 0);
    refused(&pages, 4, 0);
    for marker in [0xBA, 0xBB] {
        pages.packet(0, &[marker, 1, 0x82, 7, 0, 3, 0], 0);
        refused(&pages, 3, 0);
    }
}

/// A subdirectory D on page 2 with this body.
fn with_directory(body: &[u8], pointer: usize) -> Pages {
    let mut pages = local(&[0, 2], &[("D", 0x7F, 2, 0)]);
    pages.packet(2, body, pointer);
    pages
}

#[test]
fn subdirectory_too_short_is_4_before_its_marker() {
    for length in 0..7 {
        let body = [0xAA, b'R', b'O', b'O', b'T', 0, 0];
        refused(&with_directory(&body[..length], 0), 4, 2);
    }
    // Too short comes before the marker.
    refused(&with_directory(&[0xBB], 0), 4, 2);
    refused(&with_directory(b"", 0), 4, 2);
}

#[test]
fn tests_of_a_subdirectorys_page_come_before_its_pointer() {
    refused(&with_directory(b"\xAAROOT\x00", 77), 4, 2);
    refused(&with_directory(b"\xABROOT\x00\x00", 77), 3, 2);
    refused(&with_directory(b"\xAAROOT\x01\x00", 77), 4, 2);
    refused(&with_directory(b"\xAAROOT\x00\x00x", 77), 8, 2);
    refused(&with_directory(b"\xAAROOT\x00\x00", 77), 6, 2);
    accepted(&with_directory(b"\xAAROOT\x00\x00", 0));
}

#[test]
fn back_reference_past_the_last_page_is_4() {
    refused(&with_directory(b"\xAAROOT\x00\x63", 0), 4, 2);
}

#[test]
fn back_reference_to_another_directory_is_4() {
    refused(&with_directory(b"\xAAD   \x00\x00", 0), 4, 2);
    refused(&with_directory(b"\xAAROOT\x00\x01", 0), 4, 2);
    refused(&with_directory(b"\xAAROOT\x00\x02", 0), 4, 2);
    refused(&with_directory(b"\xAAROOT\x01\x00", 0), 4, 2);
    refused(&with_directory(b"\xAARooT\x00\x00", 0), 4, 2);
    refused(&with_directory(b"\xAAROO \x00\x00", 0), 4, 2);
}

#[test]
fn back_reference_below_a_hidden_directory_has_its_name_and_start_page() {
    let mut pages = local(&[0, 2, 3], &[("D", 0xFF, 2, 0)]);
    let upper = sub(&pages, "ROOT", 0, &[("E", 0x7F, 3, 0)]);
    let lower = sub(&pages, "D", 2, &[]);
    pages.packet(2, &upper, 0).packet(3, &lower, 0);
    accepted(&pages);
    for (parent, start) in [("ROOT", 0), ("D", 0), ("E", 2), ("D", 3), ("ROOT", 2)] {
        let lower = sub(&pages, parent, start, &[]);
        pages.packet(3, &lower, 0);
        refused(&pages, 4, 3);
    }
    pages.packet(3, b"\xAAD\x00\x00\x00\x00\x02", 0);
    refused(&pages, 4, 3);
}

#[test]
fn back_reference_of_two_bytes_is_compared_whole() {
    let mut pages = Pages::new(32, 600);
    let mut bits = [0_u8; 75];
    bits[0] = 0b1111;
    for page in [260, 515] {
        bits[page / 8] |= 1 << (page % 8);
    }
    let mut root = pages.file_control(1, 3);
    root.extend(pages.entry("D", 0x7F, 260, 0));
    let upper = sub(&pages, "ROOT", 0, &[("E", 0x7F, 515, 0)]);
    let lower = sub(&pages, "D", 260, &[]);
    pages.packet(0, &root, 0).packet(1, &bits[..27], 2);
    pages.packet(2, &bits[27..54], 3).packet(3, &bits[54..], 0);
    pages.packet(260, &upper, 0).packet(515, &lower, 0);
    accepted(&pages);
    let wrong = sub(&pages, "D", 4, &[]);
    pages.packet(515, &wrong, 0);
    refused(&pages, 4, 515);
}

#[test]
fn directory_called_root_is_named_with_its_own_start_page() {
    let mut pages = local(&[0, 2, 3], &[("ROOT", 0x7F, 2, 0)]);
    let upper = sub(&pages, "ROOT", 0, &[("E", 0xFF, 3, 0)]);
    let lower = sub(&pages, "ROOT", 2, &[]);
    pages.packet(2, &upper, 0).packet(3, &lower, 0);
    accepted(&pages);
    let wrong = sub(&pages, "ROOT", 0, &[]);
    pages.packet(3, &wrong, 0);
    refused(&pages, 4, 3);
}

// Numbers 6, 7 and 8: chains.

#[test]
fn bitmap_file_comes_before_the_roots_later_pages() {
    let mut pages = Pages::new(32, 16);
    let root = pages.file_control(6, 1);
    pages.packet(0, &root, 5).break_check(5).break_check(6);
    refused(&pages, 2, 6);

    let mut pages = Pages::new(32, 16);
    let root = pages.file_control(6, 9);
    pages.packet(0, &root, 5);
    pages.packet(6, &[0x61], 5).packet(5, &[0], 0);
    refused(&pages, 8, 0);

    let root = pages.file_control(6, 2);
    pages.packet(0, &root, 5);
    refused(&pages, 7, 5);
}

#[test]
fn pointer_is_judged_after_the_tests_of_its_own_page() {
    let mut pages = local(&[0, 3], &[]);
    pages.set_pointer(0, 3).packet(3, b"1234", 77);
    refused(&pages, 8, 3);
    pages.packet(3, b"", 77);
    refused(&pages, 6, 3);

    let mut root = pages.local_control(&[0]);
    root.extend(*b"1234");
    pages.packet(0, &root, 77);
    refused(&pages, 8, 0);
    pages.packet(0, &root[..7], 77);
    refused(&pages, 6, 0);
}

#[test]
fn bitmap_file_comes_before_stray_bytes_of_page_0() {
    let mut pages = Pages::new(32, 16);
    let mut root = pages.file_control(99, 1);
    root.push(b'x');
    pages.packet(0, &root, 0);
    refused(&pages, 6, 0);
    let mut root = pages.file_control(1, 1);
    root.push(b'x');
    pages.packet(0, &root, 0).packet(1, &[3, 0], 77);
    refused(&pages, 6, 1);
    pages.packet(1, &[3, 0], 0);
    refused(&pages, 8, 0);
}

#[test]
fn chain_that_runs_into_a_later_one_is_8_by_its_count_or_else_7() {
    let mut pages = local(&[0, 1, 2], &[("A", 1, 1, 1), ("B", 1, 2, 1)]);
    pages.packet(1, b"", 2).packet(2, b"", 0);
    refused(&pages, 8, 0);
    let mut pages = local(&[0, 1, 2], &[("A", 1, 1, 2), ("B", 1, 2, 1)]);
    pages.packet(1, b"", 2).packet(2, b"", 0);
    refused(&pages, 7, 2);
}

#[test]
fn chain_that_returns_to_itself_is_7() {
    let mut pages = local(&[0, 1, 2], &[("A", 1, 1, 9)]);
    pages.packet(1, b"", 2).packet(2, b"", 1);
    refused(&pages, 7, 1);
    pages.packet(2, b"", 2);
    refused(&pages, 7, 2);
    pages.packet(1, b"", 1);
    refused(&pages, 7, 1);
    // The bitmap file and the root too.
    let mut pages = with_bitmap_file(&[3, 0], b"");
    pages.set_pointer(1, 1);
    refused(&pages, 7, 1);
    let mut pages = local(&[0, 1], &[]);
    pages.set_pointer(0, 1).packet(1, b"", 1);
    refused(&pages, 7, 1);
}

#[test]
fn start_page_0_is_6() {
    for extension in [0, 99, 0x80, 0x7F, 0xFF] {
        for count in [0, 1] {
            let pages = local(&[0], &[("A", extension, 0, count)]);
            let directory = extension & 0x7F == 0x7F;
            let number = if directory && count == 1 { 8 } else { 6 };
            refused(&pages, number, 0);
        }
    }
}

#[test]
fn start_page_or_pointer_past_the_last_page_is_6() {
    let with_pointer = |pointer| {
        let mut pages = local(&[0, 4], &[("A", 1, 4, 2)]);
        pages.packet(4, b"abc", pointer);
        pages
    };
    for number in [16, 17, 255] {
        refused(&local(&[0], &[("A", 1, number, 1)]), 6, 0);
        refused(&with_pointer(number), 6, 4);
    }
    // The last page is a page: here its packet is wrong.
    refused(&local(&[0], &[("A", 1, 15, 1)]), 2, 15);
    refused(&with_pointer(15), 2, 15);
}

/// The number is told at the page that holds it: the entry's page, or the page before in the chain.
#[test]
fn number_past_the_last_page_is_told_at_the_page_that_holds_it() {
    let mut pages = local(&[0, 2, 3, 4], &[("D", 0x7F, 2, 0)]);
    let body = sub(&pages, "ROOT", 0, &[("A", 1, 4, 1)]);
    let entry = pages.entry("B", 1, 200, 1);
    pages.packet(2, &body, 3).packet(3, &entry, 0);
    pages.packet(4, b"x", 0);
    refused(&pages, 6, 3);
    pages.packet(4, b"x", 99);
    refused(&pages, 6, 4);
    pages.packet(3, &entry, 99);
    refused(&pages, 6, 3);
    pages.packet(2, &body, 99);
    refused(&pages, 6, 2);
}

/// With N 256 no byte is at least N: only a start page of 0 can be 6.
#[test]
fn every_one_byte_number_is_a_page_of_256() {
    let mut pages = Pages::new(32, 256);
    let mut bits = [0_u8; 32];
    bits[0] = 0b111;
    bits[31] = 0x80;
    let mut root = pages.file_control(1, 2);
    root.extend(pages.entry("A", 1, 255, 1));
    pages.packet(0, &root, 0);
    pages.packet(1, &bits[..28], 2).packet(2, &bits[28..], 0);
    pages.packet(255, b"last", 0);
    accepted(&pages);
    pages.packet(255, b"last", 255);
    refused(&pages, 7, 255);
    root[12] = 0;
    pages.packet(0, &root, 0);
    refused(&pages, 6, 0);
}

#[test]
fn two_byte_number_past_the_last_page_is_6() {
    let mut pages = Pages::new(32, 300);
    let mut bits = [0_u8; 38];
    bits[0] = 0b1111;
    let mut root = pages.file_control(1, 2);
    root.extend(pages.entry("A", 1, 3, 1));
    pages.packet(0, &root, 0);
    pages.packet(1, &bits[..27], 2).packet(2, &bits[27..], 0);
    pages.packet(3, b"x", 0);
    accepted(&pages);
    for number in [300, 301, 512, 65_535] {
        refused(pages.clone().packet(3, b"x", number), 6, 3);
        let bytes = pages.geometry.number_bytes(number);
        refused(pages.clone().alter(0, 14, &bytes), 6, 0);
        refused(pages.clone().alter(0, 5, &bytes), 6, 0);
        refused(pages.clone().packet(2, &bits[27..], number), 6, 2);
        refused(pages.clone().packet(0, &root, number), 6, 0);
    }
    // A number whose low byte is a page in use leads elsewhere by its high byte.
    refused(pages.clone().packet(3, b"x", 256 + 1), 2, 257);
}

#[test]
fn page_in_two_chains_is_7_where_it_is_met_again() {
    // A file's chain meets the bitmap file, the root's second page, an earlier file, a directory.
    let mut sound = Pages::new(32, 16);
    let mut root = sound.file_control(1, 1);
    root.extend(sound.entry("D", 0x7F, 3, 0));
    root.extend(sound.entry("F", 7, 5, 1));
    root.extend(sound.entry("G", 7, 6, 1));
    let directory = sub(&sound, "ROOT", 0, &[]);
    sound.packet(0, &root, 2).packet(2, b"", 0);
    sound.packet(1, &[0x7F, 0], 0);
    sound.packet(3, &directory, 4).packet(4, b"", 0);
    sound.packet(5, b"x", 0).packet(6, b"y", 0);
    accepted(&sound);
    for met in 1..=6 {
        refused(sound.clone().set_pointer(6, met), 7, met as u32);
        if met < 6 {
            let entry = sound.entry("G", 7, met, 1);
            refused(sound.clone().alter(0, 22, &entry), 7, met as u32);
        }
    }
    // A directory's chain meets them too.
    for met in 1..=4 {
        refused(sound.clone().set_pointer(4, met), 7, met as u32);
    }
    refused(sound.clone().set_pointer(2, 1), 7, 1);
    // A later chain is met when it is walked, after the count of the earlier one.
    refused(sound.clone().set_pointer(5, 6), 8, 0);
    // A directory's page after a file's: page 6 as a directory page is not whole.
    refused(sound.clone().set_pointer(4, 6), 8, 6);
}

#[test]
fn entry_that_starts_at_its_own_directory_is_7() {
    let mut pages = local(&[0, 2], &[("D", 0x7F, 2, 0)]);
    for extension in [1, 0x7F] {
        let count = usize::from(extension == 1);
        let body = sub(&pages, "ROOT", 0, &[("A", extension, 2, count)]);
        pages.packet(2, &body, 0);
        refused(&pages, 7, 2);
    }
    let mut pages = local(&[0, 3], &[("A", 1, 3, 1)]);
    pages.set_pointer(0, 3).packet(3, b"", 0);
    refused(&pages, 7, 3);
}

#[test]
fn page_count_of_a_file_is_that_of_its_chain() {
    for count in 0..=255 {
        let mut pages = local(&[0, 1, 2, 3], &[("A", 1, 1, count)]);
        pages.packet(1, b"abc", 2).packet(2, b"", 3);
        pages.packet(3, b"", 0);
        let expected = if count == 3 {
            answer(0, 0)
        } else {
            answer(8, 0)
        };
        assert_eq!(Button::from(&pages).verdict(), expected);
    }
}

#[test]
fn page_count_of_a_subdirectory_is_0() {
    for count in [1, 2, 255] {
        let mut pages = local(&[0, 2], &[("D", 0x7F, 2, count)]);
        let body = sub(&pages, "ROOT", 0, &[]);
        pages.packet(2, &body, 0);
        refused(&pages, 8, 0);
        // Before its start page.
        refused(&local(&[0], &[("D", 0xFF, 0, count)]), 8, 0);
        refused(&local(&[0], &[("D", 0xFF, 99, count)]), 8, 0);
    }
}

#[test]
fn page_count_of_the_bitmap_file_is_that_of_its_chain() {
    for count in 0..=255 {
        let mut pages = Pages::new(32, 16);
        let root = pages.file_control(1, count);
        pages.packet(0, &root, 0);
        pages.packet(1, &[7], 2).packet(2, &[0], 0);
        let expected = if count == 2 {
            answer(0, 0)
        } else {
            answer(8, 0)
        };
        assert_eq!(Button::from(&pages).verdict(), expected);
    }
}

#[test]
fn bitmap_byte_count_comes_before_the_root_and_its_bits_last() {
    let bad_name = b"a   \x01\x01\x01";
    refused(&with_bitmap_file(&[3], bad_name), 8, 0);
    refused(&with_bitmap_file(&[0xFF, 0xFF], bad_name), 9, 0);
    refused(&with_bitmap_file(&[0xFF, 0xFF], b""), 13, 2);
    // The page count comes before the byte count; both tell 8 and page 0.
    let mut pages = with_bitmap_file(&[3], b"");
    let root = pages.file_control(1, 2);
    pages.packet(0, &root, 0);
    refused(&pages, 8, 0);
}

#[test]
fn bitmap_byte_count_is_exact() {
    refused(&with_bitmap_file(&[], b""), 8, 0);
    refused(&with_bitmap_file(&[3], b""), 8, 0);
    accepted(&with_bitmap_file(&[3, 0], b""));
    refused(&with_bitmap_file(&[3, 0, 0], b""), 8, 0);
    refused(&with_bitmap_file(&[3, 0, 0, 0], b""), 8, 0);
}

#[test]
fn empty_packets_are_accepted() {
    let mut pages = Pages::new(32, 16);
    let root = pages.file_control(1, 3);
    pages.packet(0, &root, 4).packet(4, b"", 0);
    pages.packet(1, b"", 2).packet(2, &[0x1F], 3);
    pages.packet(3, &[0], 0);
    accepted(&pages);
    let (_, owners) = Button::from(&pages).check();
    let known = [(1, 0), (2, 0), (2, 1), (2, 2), (1, 1), (0, 0)];
    assert_eq!(owners[..6], known);
}

#[test]
fn entries_not_whole_are_8() {
    for stray in 1..=21 {
        let mut pages = local(&[0, 1], &[]);
        let mut body = pages.local_control(&[0, 1]);
        body.extend(pages.entry("A", 1, 1, 1));
        body.extend(pages.entry("B", 1, 1, 1));
        body.extend(pages.entry("C", 1, 1, 1));
        body.truncate(7 + stray);
        pages.packet(0, &body, 0).packet(1, b"x", 0);
        let expected = match stray {
            7 => answer(0, 0),
            14 | 21 => answer(7, 1),
            _ => answer(8, 0),
        };
        assert_eq!(Button::from(&pages).verdict(), expected);
    }
    // On a continuation page, and on a subdirectory's pages.
    for stray in [1, 6, 8, 13, 27] {
        let mut pages = local(&[0, 3], &[("D", 0x7F, 2, 0)]);
        let body = sub(&pages, "ROOT", 0, &[]);
        pages.set_pointer(0, 3).packet(3, &vec![b'A'; stray], 0);
        pages.packet(2, &body, 0);
        refused(&pages, 8, 3);
        pages.packet(3, b"", 0);
        pages.packet(2, &body, 4).packet(4, &vec![b'A'; stray], 0);
        refused(&pages, 8, 4);
    }
}

/// The whole chain of a directory comes before its entries, and both before the next entry above.
#[test]
fn whole_chain_of_a_directory_comes_before_its_entries() {
    let mut pages = local(&[0, 3], &[("a", 1, 0, 9)]);
    pages.set_pointer(0, 3).packet(3, b"x", 0);
    refused(&pages, 8, 3);
    pages.packet(3, b"", 0);
    refused(&pages, 9, 0);

    let mut pages = local(&[0, 2, 3], &[("D", 0x7F, 2, 0), ("b", 1, 0, 9)]);
    let body = sub(&pages, "ROOT", 0, &[("c", 1, 0, 9)]);
    pages.packet(2, &body, 3).packet(3, b"x", 0);
    refused(&pages, 8, 3);
    pages.packet(3, b"", 0);
    refused(&pages, 9, 2);
    pages.packet(2, &body[..7], 3);
    refused(&pages, 9, 0);
}

#[test]
fn pages_of_a_chain_are_judged_one_by_one() {
    let mut pages = with_directory(b"\xABROOT\x00\x00", 3);
    pages.break_check(3);
    refused(&pages, 3, 2);
    let mut pages = local(&[0], &[]);
    let mut root = pages.local_control(&[0]);
    root.extend(*b"1234");
    pages.packet(0, &root, 3).break_check(3);
    refused(&pages, 8, 0);
}

// Numbers 9 to 12: entries.

/// Whether document 01 lists the byte for names.
fn in_names(byte: u8) -> bool {
    b"ABCDEFGHIJKLMNOPQRSTUVWXYZ0123456789!#$%&'@^_`{}~".contains(&byte)
}

#[test]
fn every_byte_that_no_name_has_is_9_or_10() {
    for place in 0..4 {
        for byte in 0..=255_u8 {
            let mut pages = local(&[0, 1], &[("ABCD", 1, 1, 1)]);
            pages.packet(1, b"x", 0);
            pages.alter(0, 8 + place, &[byte]);
            let expected = if in_names(byte) || (place == 3 && byte == b' ') {
                answer(0, 0)
            } else if place == 0 && byte > 127 {
                answer(10, 0)
            } else {
                answer(9, 0)
            };
            assert_eq!(Button::from(&pages).verdict(), expected, "{place} {byte}");
        }
    }
}

#[test]
fn blanks_stand_only_after_a_name() {
    for (name, number) in [
        ("A", 0),
        ("AB", 0),
        ("ABC", 0),
        ("A B", 9),
        (" AB", 9),
        ("AB C", 9),
        ("A  B", 9),
        ("", 9),
        ("   A", 9),
        ("A\0", 9),
    ] {
        let mut pages = local(&[0, 1], &[(name, 1, 1, 1)]);
        pages.packet(1, b"x", 0);
        assert_eq!(Button::from(&pages).verdict(), answer(number, 0), "{name}");
    }
}

#[test]
fn backslash_is_no_name_byte() {
    refused(&local(&[0], &[("A\\$", 1, 1, 1)]), 9, 0);
    refused(&local(&[0], &[("\\", 1, 1, 1)]), 9, 0);
}

#[test]
fn extension_numbers_100_to_126_are_10() {
    for extension in 0..=255_u8 {
        let mut pages = local(&[0, 1], &[("A", extension, 1, 1)]);
        pages.packet(1, b"x", 0);
        let expected = match extension & 127 {
            0..=99 => answer(0, 0),
            127 => answer(8, 0),
            _ => answer(10, 0),
        };
        assert_eq!(Button::from(&pages).verdict(), expected, "{extension}");
    }
}

#[test]
fn high_byte_is_10_in_the_first_place_of_a_last_entry_and_9_in_the_others() {
    for place in 1..4 {
        let mut pages = local(&[0], &[("ABCD", 200, 0, 0)]);
        pages.alter(0, 8 + place, &[0x80]);
        refused(&pages, 9, 0);
    }
    let mut pages = local(&[0], &[("ABCD", 200, 0, 0)]);
    pages.alter(0, 8, &[0x80]);
    refused(&pages, 10, 0);
    refused(&local(&[0], &[("A", 0xE4, 1, 1)]), 10, 0);
    refused(&local(&[0], &[("a", 0xE4, 1, 1)]), 9, 0);
}

#[test]
fn faults_of_an_entry_are_met_in_order() {
    // First byte, name, extension, twice, level, count, start: each with all later faults too.
    let twice = |second: (&'static str, u8, usize, usize)| {
        let mut pages = local(&[0, 1], &[("A", 1, 1, 1), second]);
        pages.packet(1, b"x", 0);
        pages
    };
    let mut pages = twice(("a", 100, 0, 9));
    pages.alter(0, 15, &[0xFF]);
    refused(&pages, 10, 0);
    refused(&twice(("a", 100, 0, 9)), 9, 0);
    refused(&twice(("A", 100, 0, 9)), 10, 0);
    refused(&twice(("A", 1, 0, 9)), 11, 0);
    refused(&twice(("A", 0x81, 0, 9)), 11, 0);
    refused(&twice(("A", 0x7F, 0, 9)), 8, 0);
    refused(&twice(("A", 0x7F, 0, 0)), 6, 0);
    refused(&twice(("A", 2, 0, 9)), 6, 0);
    refused(&twice(("A", 2, 1, 9)), 7, 1);
    refused(&twice(("A", 2, 2, 9)), 2, 2);
}

/// The page of the entry is told, not the directory's first page.
#[test]
fn fault_of_an_entry_is_told_at_its_own_page() {
    for (name, extension, number) in [("a", 1, 9), ("A", 101, 10), ("B", 1, 11), ("A", 127, 6)] {
        let mut pages = local(&[0, 1, 5], &[("B", 1, 1, 1)]);
        let entry = pages.entry(name, extension, 0, 0);
        pages.set_pointer(0, 5).packet(5, &entry, 0);
        pages.packet(1, b"x", 0);
        refused(&pages, number, 5);
    }
}

#[test]
fn file_and_directory_of_one_name_are_accepted_and_two_directories_are_11() {
    let mut pages = local(&[0, 1, 2], &[("A", 1, 1, 1), ("A", 0x7F, 2, 0)]);
    let body = sub(&pages, "ROOT", 0, &[]);
    pages.packet(1, b"x", 0).packet(2, &body, 0);
    accepted(&pages);
    let mut pages = local(&[0, 1, 2], &[("A", 0x7F, 1, 0), ("A", 0xFF, 2, 0)]);
    pages.packet(1, &body, 0).packet(2, &body, 0);
    refused(&pages, 11, 0);
}

#[test]
fn name_and_extension_number_twice_is_11() {
    for (first, second, number) in [
        (("A", 1), ("A", 1), 11),
        (("A", 1), ("A", 0x81), 11),
        (("A", 0x81), ("A", 1), 11),
        (("A", 1), ("A", 2), 0),
        (("A", 1), ("B", 1), 0),
        (("A", 1), ("AB", 1), 0),
    ] {
        let mut pages = local(
            &[0, 1, 2],
            &[(first.0, first.1, 1, 1), (second.0, second.1, 2, 1)],
        );
        pages.packet(1, b"x", 0).packet(2, b"y", 0);
        assert_eq!(Button::from(&pages).verdict(), answer(number, 0));
    }
}

/// The same name and extension in two directories is no fault.
#[test]
fn same_name_in_two_directories_is_accepted() {
    let mut pages = local(&[0, 1, 2, 3], &[("A", 1, 1, 1), ("D", 0x7F, 2, 0)]);
    let body = sub(&pages, "ROOT", 0, &[("A", 1, 3, 1)]);
    pages.packet(1, b"x", 0).packet(2, &body, 0);
    pages.packet(3, b"y", 0);
    accepted(&pages);
}

#[test]
fn name_twice_comes_after_all_below_the_earlier_entry() {
    let mut pages = local(&[0, 1], &[("A", 0x7F, 1, 0), ("A", 0xFF, 1, 0)]);
    let body = sub(&pages, "ROOT", 0, &[("a", 1, 9, 1)]);
    pages.packet(1, &body, 0);
    refused(&pages, 9, 1);
    pages.packet(1, &body[..7], 0);
    refused(&pages, 11, 0);
}

/// Directories nested on pages 1, 2, ... one below the other, the last with these entries.
fn nested(levels: usize, last: &[(&str, u8, usize, usize)]) -> Pages {
    let marked: Vec<usize> = (0..=levels).collect();
    let mut pages = local(&marked, &[("D", 0x7F, 1, 0)]);
    for level in 1..=levels {
        let parent = if level == 1 { "ROOT" } else { "D" };
        let below = [("D", 0xFF, level + 1, 0)];
        let entries = if level == levels { last } else { &below[..] };
        let body = sub(&pages, parent, level - 1, entries);
        pages.packet(level, &body, 0);
    }
    pages
}

#[test]
fn directory_at_level_nine_is_12() {
    accepted(&nested(8, &[]));
    // Count and start page come after; twice comes before.
    for (start, count) in [(9, 0), (0, 0), (9, 9), (99, 9)] {
        refused(&nested(8, &[("E", 0x7F, start, count)]), 12, 8);
        refused(&nested(8, &[("E", 0xFF, start, count)]), 12, 8);
    }
    refused(&nested(9, &[]), 12, 8);
    refused(&nested(7, &[("E", 0x7F, 0, 0)]), 6, 7);
    let mut pages = nested(8, &[("E", 1, 9, 1), ("E", 0x7F, 0, 0)]);
    pages.packet(9, b"x", 0);
    refused(&pages, 12, 8);
    refused(&nested(8, &[("e", 0x7F, 0, 0)]), 9, 8);
}

#[test]
fn file_at_level_eight_is_accepted_listed_and_read() {
    let marked: Vec<usize> = (0..10).collect();
    let mut pages = nested(8, &[("F", 5, 9, 1)]);
    pages.packet(9, b"deep", 0);
    let mut root = pages.local_control(&marked);
    root.extend(pages.entry("D", 0x7F, 1, 0));
    pages.packet(0, &root, 0);
    accepted(&pages);
    let button = Button::from(&pages);
    let deepest = button.list(8).0;
    assert_eq!((deepest.level, deepest.extension), (8, 5));
    let mut path = b"D   ".repeat(8);
    path.extend(b"F   \x05");
    assert_eq!(button.read(&path), (0, b"deep".to_vec()));
    // The path with nine directory names is malformed, not absent.
    let mut longer = b"D   ".to_vec();
    longer.extend(&path);
    assert_eq!(button.read(&longer).0, 14);
}

// Number 13: the bitmap.

#[test]
fn every_flipped_bit_of_a_local_bitmap_is_13() {
    let mut sound = local(&[0, 1, 9], &[("A", 1, 1, 2)]);
    sound.packet(1, b"x", 9).packet(9, b"y", 0);
    accepted(&sound);
    for bit in 0..32 {
        let mut pages = sound.clone();
        let byte = pages.page(0)[4 + bit / 8] ^ 1 << (bit % 8);
        pages.alter(0, 4 + bit / 8, &[byte]);
        refused(&pages, 13, bit as u32);
    }
}

#[test]
fn every_flipped_bit_of_a_bitmap_file_is_13() {
    for page_count in [2, 7, 8, 9, 16, 20, 31, 32, 40, 257, 300] {
        let sound = Button::formatted(32, page_count, false);
        let bits = 8 * (page_count as usize).div_ceil(8);
        let n = sound.pages().geometry.number_length();
        let most = 29 - n;
        for bit in 0..bits {
            let mut pages = sound.pages();
            let (page, place) = (1 + bit / 8 / most, 1 + bit / 8 % most);
            let byte = pages.page(page)[place] ^ 1 << (bit % 8);
            pages.alter(page, place, &[byte]);
            assert_eq!(Button::from(&pages).verdict(), answer(13, bit as u32));
        }
    }
}

#[test]
fn bits_from_n_up_must_be_0() {
    let mut pages = Pages::new(32, 16);
    pages.packet(0, &[0xAA, 0, 0x80, 1, 0, 0, 0x80], 0);
    refused(&pages, 13, 31);
    pages.packet(0, &[0xAA, 0, 0x80, 1, 0, 1, 0x80], 0);
    refused(&pages, 13, 16);
    let mut pages = Pages::new(32, 20);
    let root = pages.file_control(1, 1);
    pages.packet(0, &root, 0).packet(1, &[3, 0, 0x80], 0);
    refused(&pages, 13, 23);
    pages.packet(1, &[3, 0, 0], 0);
    accepted(&pages);
}

/// The highest page that an answer can tell: bit 65,535 of N 65,535.
#[test]
fn bit_65535_is_told() {
    let mut button = Button::zeros(32, 65_535);
    assert_eq!(button.format(false).0, answer(0, 0));
    let mut pages = button.pages();
    let last = 8_192_usize.div_ceil(27);
    let place = usize::from(pages.page(last)[0]) - 2;
    pages.alter(last, place, &[0x80]);
    assert_eq!(Button::from(&pages).verdict(), answer(13, 65_535));
}

/// All other faults come before the bitmap.
#[test]
fn bitmap_comes_after_all_other_faults() {
    let mut pages = local(&[5, 31], &[("A", 1, 1, 2)]);
    pages.packet(1, b"x", 0);
    refused(&pages, 8, 0);
    let mut pages = local(&[5, 31], &[("A", 1, 1, 1)]);
    pages.packet(1, b"x", 0);
    refused(&pages, 13, 0);
    let mut pages = local(&[0, 5, 31], &[("A", 1, 1, 1)]);
    pages.packet(1, b"x", 0);
    refused(&pages, 13, 1);
}
