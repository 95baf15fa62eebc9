//! Sizes that follow from page length and page count (document 01, "Geometry"; A3).

/// The greatest N with a local bitmap: its four bytes have a bit for each page.
pub const MOST_LOCAL_PAGES: usize = 32;

/// A page length P and a page count N within their limits.
#[derive(Clone, Copy, Debug, PartialEq, Eq)]
pub struct Geometry {
    page_length: usize,
    page_count: usize,
}

impl Geometry {
    /// P is 32 to 256, N is 2 to 65,535; anything else is no geometry.
    pub fn new(page_length: u32, page_count: u32) -> Option<Geometry> {
        if !(32..=256).contains(&page_length) || !(2..=65_535).contains(&page_count) {
            return None;
        }
        Some(Geometry {
            page_length: page_length as usize,
            page_count: page_count as usize,
        })
    }

    /// P, the bytes of a page.
    pub fn page_length(&self) -> usize {
        self.page_length
    }

    /// N, the number of pages.
    pub fn page_count(&self) -> usize {
        self.page_count
    }

    /// The image is exactly P times N bytes.
    pub fn image_length(&self) -> usize {
        self.page_length * self.page_count
    }

    /// n, the bytes of a page number: 1 for N up to 256, 2 above.
    pub fn number_length(&self) -> usize {
        if self.page_count <= 256 {
            1
        } else {
            2
        }
    }

    /// The greatest value of a packet's length byte, P - 3.
    pub fn max_packet_length(&self) -> usize {
        self.page_length - 3
    }

    /// The greatest number of data bytes in a packet, P - 3 - n.
    pub fn max_data(&self) -> usize {
        self.page_length - 3 - self.number_length()
    }

    /// The bytes of an entry, 5 + 2n.
    pub fn entry_length(&self) -> usize {
        5 + 2 * self.number_length()
    }

    /// The bytes of a control field, 6 + n.
    pub fn control_length(&self) -> usize {
        6 + self.number_length()
    }

    /// Entries that fit in a directory's first page, (P - 9 - 2n) / (5 + 2n) rounded down.
    pub fn first_page_entries(&self) -> usize {
        (self.max_data() - self.control_length()) / self.entry_length()
    }

    /// Entries that fit in a continuation page, (P - 3 - n) / (5 + 2n) rounded down.
    pub fn continuation_entries(&self) -> usize {
        self.max_data() / self.entry_length()
    }

    /// The bytes of a bitmap file, N / 8 rounded up.
    pub fn bitmap_file_length(&self) -> usize {
        self.page_count.div_ceil(8)
    }

    /// The marker of a directory's first page, AA for n = 1 and AB for n = 2.
    pub fn marker(&self) -> u8 {
        if self.number_length() == 1 {
            0xAA
        } else {
            0xAB
        }
    }

    /// Whether a local bitmap is allowed, for check and format: only for N up to 32.
    pub fn allows_local_bitmap(&self) -> bool {
        self.page_count <= MOST_LOCAL_PAGES
    }

    /// A page number stored low byte first in the first n of `bytes`; missing bytes count as zero.
    pub fn number_at(&self, bytes: &[u8]) -> usize {
        let stored = bytes.iter().take(self.number_length());
        stored
            .rev()
            .fold(0, |number, &byte| number * 256 + usize::from(byte))
    }

    /// A page number as n bytes, low byte first.
    pub fn number_bytes(&self, number: usize) -> Vec<u8> {
        number.to_le_bytes()[..self.number_length()].to_vec()
    }
}

#[cfg(test)]
mod tests {
    use super::Geometry;

    /// The five sizes that document 01 prints for a geometry.
    fn sizes(page_length: u32, page_count: u32) -> Option<[usize; 5]> {
        let geometry = Geometry::new(page_length, page_count)?;
        Some([
            geometry.max_data(),
            geometry.entry_length(),
            geometry.control_length(),
            geometry.first_page_entries(),
            geometry.continuation_entries(),
        ])
    }

    #[test]
    fn sizes_are_those_that_document_01_prints() {
        assert_eq!(sizes(32, 256), Some([28, 7, 7, 3, 4]));
        assert_eq!(sizes(32, 257), Some([27, 9, 8, 2, 3]));
        assert_eq!(sizes(128, 16).map(|sizes| sizes[4]), Some(17));
    }

    #[test]
    fn local_bitmap_is_allowed_up_to_32_pages() {
        for page_count in 2..=65_535 {
            let geometry = Geometry::new(32, page_count);
            let allowed = geometry.map(|geometry| geometry.allows_local_bitmap());
            assert_eq!(allowed, Some(page_count <= 32), "{page_count} pages");
        }
    }

    #[test]
    fn entries_of_a_first_page_are_document_01s_formula() {
        for page_length in 32..=256_u32 {
            for (page_count, n) in [(16, 1), (1_024, 2)] {
                let printed = (page_length - 9 - 2 * n) / (5 + 2 * n);
                let counted = sizes(page_length, page_count).map(|sizes| sizes[3]);
                assert_eq!(counted, Some(printed as usize));
            }
        }
    }
}
