//! The answers of the calls and the numbers they carry (document 01, "Numbers that an answer can carry").

/// The answer of format, put, delete, of making and removing a directory, and of gather: a number and a page.
#[derive(Clone, Copy, Debug, PartialEq, Eq, Default)]
pub struct Answer {
    pub number: u32,
    pub page: u32,
}

/// The answer of a check: pages in use, files and directories, all 0 in a refusal.
#[derive(Clone, Copy, Debug, PartialEq, Eq, Default)]
pub struct Totals {
    pub number: u32,
    pub page: u32,
    pub used: u32,
    pub files: u32,
    pub directories: u32,
}

/// The answer of listing by number: what a line of `list` shows, all 0 in a refusal.
#[derive(Clone, Copy, Debug, PartialEq, Eq, Default)]
pub struct Listing {
    pub number: u32,
    pub page: u32,
    /// The level of the entry's place, 0 in the root.
    pub level: u32,
    /// The four bytes of the name as stored, the first byte lowest.
    pub name: u32,
    /// The extension number, 0 to 127.
    pub extension: u32,
    /// The top bit of the extension, 0 or 1.
    pub attribute: u32,
    pub start: u32,
    /// The pages as in the entry, 0 for a directory.
    pub pages: u32,
    /// The bytes of a file, 0 for a directory.
    pub length: u32,
}

/// The answer of read: the file's length, 0 in a refusal.
#[derive(Clone, Copy, Debug, PartialEq, Eq, Default)]
pub struct Length {
    pub number: u32,
    pub page: u32,
    pub length: u32,
}

/// The answer of a careful put or delete: the page writes made, and 1 if any are left, else 0; both 0 in a refusal.
#[derive(Clone, Copy, Debug, PartialEq, Eq, Default)]
pub struct Writes {
    pub number: u32,
    pub page: u32,
    pub made: u32,
    pub left: u32,
}

/// The answer of a mend: the number of marks cleared, 0 in a refusal.
#[derive(Clone, Copy, Debug, PartialEq, Eq, Default)]
pub struct Mended {
    pub number: u32,
    pub page: u32,
    pub cleared: u32,
}

/// The refusals by name; the value of each is its number in document 01, from 20 up in document 02 (A1, A6, A11, A12).
#[derive(Clone, Copy, Debug, PartialEq, Eq)]
pub(crate) enum Fault {
    Arguments = 1,
    Packet = 2,
    Marker = 3,
    Control = 4,
    InProgress = 5,
    PageNumber = 6,
    Crossed = 7,
    Count = 8,
    Name = 9,
    Extension = 10,
    Twice = 11,
    TooDeep = 12,
    Bitmap = 13,
    Path = 14,
    Absent = 15,
    ReadOnly = 16,
    Room = 17,
    Output = 18,
    Dump = 19,
    NotEmpty = 20,
    AlreadyThere = 21,
    Hidden = 22,
    CountFile = 24,
    Weight = 25,
}

impl Fault {
    /// The answer that tells this refusal and a page.
    pub(crate) fn at(self, page: usize) -> Answer {
        Answer {
            number: self as u32,
            page: page as u32,
        }
    }
}

impl From<Answer> for Totals {
    fn from(answer: Answer) -> Totals {
        Totals {
            number: answer.number,
            page: answer.page,
            ..Totals::default()
        }
    }
}

impl From<Answer> for Listing {
    fn from(answer: Answer) -> Listing {
        Listing {
            number: answer.number,
            page: answer.page,
            ..Listing::default()
        }
    }
}

impl From<Answer> for Length {
    fn from(answer: Answer) -> Length {
        Length {
            number: answer.number,
            page: answer.page,
            ..Length::default()
        }
    }
}

impl From<Answer> for Writes {
    fn from(answer: Answer) -> Writes {
        Writes {
            number: answer.number,
            page: answer.page,
            ..Writes::default()
        }
    }
}

impl From<Answer> for Mended {
    fn from(answer: Answer) -> Mended {
        Mended {
            number: answer.number,
            page: answer.page,
            ..Mended::default()
        }
    }
}
