//! The check sum: known vectors, and the pages that document 001 prints.
//!
//! Programs: the library and the second program, each sum by both; and the sum worked here a whole byte at a time, from a table of 256.
//! The archive is made by `tools/build`.

use common::agreed::{check_bytes, crc16};
use referee::rng::Rng;

/// What each byte that leaves adds to the register: the sum of what its bits add. The last bit to leave adds the polynomial, each bit before
/// it one step more of that.
fn table_of_256() -> [u16; 256] {
    let mut of_bit = [0xA001_u16; 8];
    for bit in (0..7).rev() {
        let later = of_bit[bit + 1];
        of_bit[bit] = (later >> 1) ^ if later & 1 == 1 { 0xA001 } else { 0 };
    }
    let mut table = [0; 256];
    for (byte, place) in table.iter_mut().enumerate() {
        for (bit, worth) in of_bit.iter().enumerate() {
            if byte >> bit & 1 == 1 {
                *place ^= worth;
            }
        }
    }
    table
}

/// The register after `bytes`, worked a byte at a time.
fn byte_by_byte(table: &[u16; 256], start: u16, bytes: &[u8]) -> u16 {
    let mut register = start;
    for byte in bytes {
        let [low, high] = register.to_le_bytes();
        register = u16::from(high) ^ table[usize::from(low ^ byte)];
    }
    register
}

#[test]
fn bit_by_bit_is_byte_by_byte() {
    let table = table_of_256();
    for start in 0..=u16::MAX {
        assert_eq!(crc16(start, &[0x5A]), byte_by_byte(&table, start, &[0x5A]));
    }
    for byte in 0..=u8::MAX {
        for start in [0x0000, 0x90F1, 0xFFFF] {
            assert_eq!(crc16(start, &[byte]), byte_by_byte(&table, start, &[byte]));
        }
    }
    let mut rng = Rng::new(0x27);
    for length in 0..600 {
        let bytes = rng.bytes(length);
        let start = rng.next_u64() as u16;
        let expected = byte_by_byte(&table, start, &bytes);
        assert_eq!(crc16(start, &bytes), expected, "{length}");
    }
}

#[test]
fn worked_step_of_application_note_27_gives_its_register() {
    assert_eq!(crc16(0x90F1, &[0x75]), 0x6390);
}

#[test]
fn crc_16_arc_of_123456789_is_bb3d() {
    assert_eq!(crc16(0, b"123456789"), 0xBB3D);
    assert_eq!(crc16(0, b""), 0);
    assert_eq!(crc16(0x1234, b""), 0x1234);
}

#[test]
fn check_bytes_are_inverted_low_byte_first() {
    let packet = b"123456789";
    assert_eq!(
        check_bytes(0, packet),
        [!0xBB3D_u16 as u8, (!0xBB3D_u16 >> 8) as u8]
    );
}

/// DS1985 example: its pages 0 and 1 use the page number; page 1 has 73 for the misprinted 7E.
#[test]
fn printed_checks_of_the_ds1985_start_with_the_page_number() {
    let page_0 = [
        0x0F, 0xAA, 0x00, 0x00, 0x00, 0x00, 0x08, 0x01, 0x44, 0x45, 0x4D, 0x4F, 0x0C, 0x01, 0x01,
        0x00,
    ];
    assert_eq!(check_bytes(0, &page_0), [0x04, 0x1A]);
    let page_1 = [0x05, 0x54, 0x65, 0x73, 0x74, 0x00];
    assert_eq!(check_bytes(1, &page_1), [0x07, 0xA0]);
    let misprinted = [0x05, 0x54, 0x65, 0x7E, 0x74, 0x00];
    assert_ne!(check_bytes(1, &misprinted), [0x07, 0xA0]);
}

/// The three packets of the bitmap-file example.
fn bitmap_file_example() -> [Vec<u8>; 3] {
    let mut page_1 = vec![0; 30];
    page_1[0] = 0x1D;
    page_1[1] = 0x0F;
    page_1[29] = 0x02;
    let page_2 = vec![0x05, 0, 0, 0, 0, 0];
    let page_3 = vec![0x05, 0x54, 0x45, 0x53, 0x54, 0];
    [page_1, page_2, page_3]
}

#[test]
fn bitmap_file_example_started_with_page_numbers_is_2b35_fe48_1588() {
    let [page_1, page_2, page_3] = bitmap_file_example();
    assert_eq!(check_bytes(1, &page_1), [0x2B, 0x35]);
    assert_eq!(check_bytes(2, &page_2), [0xFE, 0x48]);
    assert_eq!(check_bytes(3, &page_3), [0x15, 0x88]);
}

/// The checks that document 001 prints there are those with start 0 on all three pages.
#[test]
fn printed_checks_of_the_bitmap_file_example_start_with_0() {
    let [page_1, page_2, page_3] = bitmap_file_example();
    assert_eq!(check_bytes(0, &page_1), [0x2A, 0x65]);
    assert_eq!(check_bytes(0, &page_2), [0xFF, 0xAA]);
    assert_eq!(check_bytes(0, &page_3), [0x15, 0xBB]);
}

/// Starting with a number is the same as changing the first two bytes by it and starting with 0.
#[test]
fn start_enters_the_first_two_bytes() {
    for page in [0_u16, 1, 2, 255, 256, 4_660, 65_534] {
        let packet = *b"\x06packet";
        let mut changed = packet;
        changed[0] ^= page.to_le_bytes()[0];
        changed[1] ^= page.to_le_bytes()[1];
        assert_eq!(crc16(page, &packet), crc16(0, &changed));
    }
}
