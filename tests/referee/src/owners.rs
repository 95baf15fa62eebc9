//! The owner table: a record of each page, as bytes (document 01, "Numbers that an answer can carry"; document 02, A8).

use crate::tree::{Bitmap, Tree};

/// The bytes of a record.
pub const RECORD_LENGTH: usize = 4;

/// The owner of the root's pages.
const ROOT_OWNER: usize = 1;

/// The owner of the bitmap file's pages.
const BITMAP_OWNER: usize = 2;

/// The owner of the pages of the entry at walk position 0.
const FIRST_ENTRY_OWNER: usize = 3;

/// The bytes of the table that so many pages need.
pub fn table_length(page_count: usize) -> usize {
    RECORD_LENGTH * page_count
}

/// The bytes of a page's record: its owner, then its place in the owner's chain from 0, each two bytes, low byte first.
pub fn record_bytes(owner: usize, place: usize) -> [u8; RECORD_LENGTH] {
    let [owner_low, owner_high] = (owner as u16).to_le_bytes();
    let [place_low, place_high] = (place as u16).to_le_bytes();
    [owner_low, owner_high, place_low, place_high]
}

/// Writes the records of an accepted image: for each chain those of its pages, for every other page 0 and 0. The rest of the table stays.
pub(crate) fn write(tree: &Tree, table: &mut [u8]) {
    clear(tree.used.len(), table);
    write_chain(ROOT_OWNER, &tree.root.pages, table);
    if let Bitmap::File(pages) = &tree.bitmap {
        write_chain(BITMAP_OWNER, pages, table);
    }
    for (position, (_, entry)) in tree.walk().iter().enumerate() {
        write_chain(FIRST_ENTRY_OWNER + position, entry.pages(), table);
    }
}

/// Writes 0 and 0 for so many pages; the rest of the table stays.
pub(crate) fn clear(page_count: usize, table: &mut [u8]) {
    table[..table_length(page_count)].fill(0);
}

/// Writes the records of a chain's pages.
fn write_chain(owner: usize, pages: &[usize], table: &mut [u8]) {
    for (place, &page) in pages.iter().enumerate() {
        let start = table_length(page);
        table[start..start + RECORD_LENGTH].copy_from_slice(&record_bytes(owner, place));
    }
}

#[cfg(test)]
mod tests {
    use super::record_bytes;
    use crate::builder::pages::Pages;
    use crate::{check, put};

    /// A bitmap file on pages 9 and 2, a file F on pages 5, 4 and 7, and a directory D on pages 3 and 6, whose second page has a file G on page 1.
    fn sample() -> Pages {
        let mut pages = Pages::new(32, 16);
        let mut root = pages.file_control(9, 2);
        root.extend(pages.entry("F", 1, 5, 3));
        root.extend(pages.entry("D", 127, 3, 0));
        let sub = pages.sub_control("ROOT", 0);
        let second = pages.entry("G", 2, 1, 1);
        pages.packet(0, &root, 0).packet(9, &[0xFF], 2);
        pages.packet(2, &[0x02], 0).packet(1, b"g", 0);
        pages.packet(5, b"f", 4).packet(4, b"", 7);
        pages.packet(7, b"f", 0).packet(3, &sub, 6);
        pages.packet(6, &second, 0);
        pages
    }

    /// The table of the sample: owner and place of pages 0 to 9, low bytes first; the others are free.
    const TABLE: [u8; 40] = [
        1, 0, 0, 0, 5, 0, 0, 0, 2, 0, 1, 0, 4, 0, 0, 0, 3, 0, 1, 0, //
        3, 0, 0, 0, 4, 0, 1, 0, 3, 0, 2, 0, 0, 0, 0, 0, 2, 0, 0, 0,
    ];

    #[test]
    fn record_has_the_owner_first_and_low_bytes_first() {
        assert_eq!(record_bytes(0x0102, 0x0304), [2, 1, 4, 3]);
        assert_eq!(record_bytes(65_535, 65_534), [0xFF, 0xFF, 0xFE, 0xFF]);
    }

    #[test]
    fn places_are_counted_in_each_chain_of_its_own() {
        let mut table = [0x99; 70];
        let told = check(32, 16, &sample().image, &mut table);
        assert_eq!((told.number, told.used), (0, 9));
        assert_eq!(table[..40], TABLE);
        assert_eq!(table[40..64], [0; 24]);
        assert_eq!(table[64..], [0x99; 6]);
    }

    #[test]
    fn a_fault_leaves_no_record_and_a_table_too_short_stays() {
        let mut pages = sample();
        pages.page_mut(7)[1] ^= 1;
        let mut table = [0x99; 66];
        let told = check(32, 16, &pages.image, &mut table);
        assert_eq!((told.number, told.page), (2, 7));
        assert_eq!((&table[..64], &table[64..]), (&[0; 64][..], &[0x99; 2][..]));
        for length in [0, 32, 60, 63] {
            let mut table = vec![0x99; length];
            let told = check(32, 16, &sample().image, &mut table);
            assert_eq!((told.number, table), (1, vec![0x99; length]));
        }
    }

    /// A shorter file in place of F has its chain from 0 on the lowest pages, and the pages that it leaves are free.
    #[test]
    fn a_replaced_file_has_places_of_its_new_chain() {
        let mut pages = sample();
        let mut table = [0x99; 64];
        let told = put(32, 16, &mut pages.image, b"F   \x01", &[6; 29], &mut table);
        assert_eq!(told.number, 0);
        assert_eq!(
            table[16..32],
            [3, 0, 0, 0, 3, 0, 1, 0, 4, 0, 1, 0, 0, 0, 0, 0]
        );
    }
}
