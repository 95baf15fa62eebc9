//! The fields of an entry (document 01, "Entry").

use crate::geometry::Geometry;
use crate::names::Name;

/// The extension number of a subdirectory.
pub(crate) const SUBDIRECTORY: u8 = 127;

/// The highest extension number of a file.
pub(crate) const LAST_FILE_EXTENSION: u8 = 99;

/// The bytes of name and extension, which stand before start page and number of pages.
pub(crate) const NAME_AND_EXTENSION: usize = 5;

/// The fields of an entry as stored: name (4), extension (1), start page (n), number of pages (n).
#[derive(Clone, Copy, Debug, PartialEq, Eq)]
pub(crate) struct Fields {
    pub(crate) name: Name,
    pub(crate) extension: u8,
    pub(crate) start: usize,
    pub(crate) pages: usize,
}

impl Fields {
    /// The fields in the bytes of an entry; missing bytes count as zero.
    pub(crate) fn from_bytes(geometry: &Geometry, bytes: &[u8]) -> Fields {
        let byte = |place: usize| bytes.get(place).copied().unwrap_or(0);
        let numbers = bytes.get(NAME_AND_EXTENSION..).unwrap_or(&[]);
        let pages = numbers.get(geometry.number_length()..).unwrap_or(&[]);
        Fields {
            name: [byte(0), byte(1), byte(2), byte(3)],
            extension: byte(4),
            start: geometry.number_at(numbers),
            pages: geometry.number_at(pages),
        }
    }

    /// The bytes of the entry.
    pub(crate) fn to_bytes(self, geometry: &Geometry) -> Vec<u8> {
        let mut bytes = self.name.to_vec();
        bytes.push(self.extension);
        bytes.extend(geometry.number_bytes(self.start));
        bytes.extend(geometry.number_bytes(self.pages));
        bytes
    }

    /// Whether it is an extended entry, a stamp of the entry after it: the first byte is above 127 (A2).
    pub(crate) fn is_stamp(&self) -> bool {
        self.name[0] > 127
    }

    /// The low seven bits of the extension.
    pub(crate) fn extension_number(&self) -> u8 {
        self.extension & 0x7F
    }

    /// The top bit of the extension: read-only for a file, hidden for a subdirectory.
    pub(crate) fn attribute(&self) -> bool {
        self.extension & 0x80 != 0
    }

    /// Whether the entry is a subdirectory's, by its extension number.
    pub(crate) fn is_subdirectory(&self) -> bool {
        self.extension_number() == SUBDIRECTORY
    }
}
