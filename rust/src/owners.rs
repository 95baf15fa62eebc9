//! The owner table: a record of four bytes for each page, its owner and its place in the owner's chain, each two bytes, low byte first.

/// The bytes of a record.
const RECORD: usize = 4;

/// The greatest page count.
const MOST_PAGES: u32 = 65_535;

/// Who has a page.
#[derive(Clone, Copy, Debug, PartialEq, Eq, Hash)]
pub enum Owner {
    /// Nobody: the page is free. After the refusals 2 to 13 every page is told so.
    Free,
    /// The root directory.
    Root,
    /// The bitmap file.
    Bitmap,
    /// The file or directory whose entry has this position in walk order, as [`crate::list`] takes it.
    Entry(u32),
}

/// What the owner table tells of a page.
#[derive(Clone, Copy, Debug, PartialEq, Eq, Hash)]
pub struct Record {
    /// Who has the page.
    pub owner: Owner,
    /// The page's place in its owner's chain, from 0; 0 for a free page.
    pub place: u32,
}

/// An owner table of just the length that the calls need for so many pages, all zeros.
///
/// For more than 65,535 pages, which every call refuses with 1, the table is empty.
pub fn owner_table(page_count: u32) -> Vec<u8> {
    match page_count {
        0..=MOST_PAGES => vec![0; RECORD * page_count as usize],
        _ => Vec::new(),
    }
}

/// The owner of a page and its place in the owner's chain, by a table that a call left; none if the table has no record of the page.
///
/// ```
/// use owfs::{owner_of, Owner, Record};
///
/// let owners = [1, 0, 0, 0, 3, 0, 1, 0, 3, 0, 0, 0];
/// let record = |owner, place| Some(Record { owner, place });
/// assert_eq!(owner_of(&owners, 0), record(Owner::Root, 0));
/// assert_eq!(owner_of(&owners, 1), record(Owner::Entry(0), 1));
/// assert_eq!(owner_of(&owners, 2), record(Owner::Entry(0), 0));
/// assert_eq!(owner_of(&owners, 3), None);
/// ```
///
/// After the refusals 2 to 13 every record is 0: such a table says nothing of a page. `examples/bad_page.rs` shows how to tell whose a page is that has
/// gone bad, and what lies after it, by the table of the last dump that was accepted.
pub fn owner_of(owners: &[u8], page: u32) -> Option<Record> {
    let bytes = owners.chunks_exact(RECORD).nth(page as usize)?;
    let number = u32::from(bytes[0]) + 256 * u32::from(bytes[1]);
    let owner = match number {
        0 => Owner::Free,
        1 => Owner::Root,
        2 => Owner::Bitmap,
        _ => Owner::Entry(number - 3),
    };
    let place = u32::from(bytes[2]) + 256 * u32::from(bytes[3]);
    Some(Record { owner, place })
}

#[cfg(test)]
mod tests {
    use super::{owner_of, owner_table, Owner, Record};

    #[test]
    fn table_has_four_bytes_for_each_page() {
        for (page_count, length) in [
            (0, 0),
            (2, 8),
            (65_535, 262_140),
            (65_536, 0),
            (u32::MAX, 0),
        ] {
            assert_eq!(owner_table(page_count).len(), length);
        }
    }

    #[test]
    fn owner_and_place_are_told_by_their_numbers() {
        let owners = [
            [0, 0, 0, 0],
            [1, 0, 2, 0],
            [2, 0, 0, 1],
            [3, 0, 1, 2],
            [2, 1, 0xFF, 0],
            [0xFF, 0xFF, 0xFE, 0xFF],
        ];
        let mut table = owners.concat();
        // Bytes that are no whole record.
        table.extend([7, 7, 7]);
        let expected = [
            (Owner::Free, 0),
            (Owner::Root, 2),
            (Owner::Bitmap, 256),
            (Owner::Entry(0), 513),
            (Owner::Entry(255), 255),
            (Owner::Entry(65_532), 65_534),
        ];
        for (page, (owner, place)) in (0..).zip(expected) {
            assert_eq!(owner_of(&table, page), Some(Record { owner, place }));
        }
        for page in [6, 65_535, u32::MAX] {
            assert_eq!(owner_of(&table, page), None);
        }
        assert_eq!(owner_of(&[], 0), None);
    }
}
