//! The refusals of the calls, by number and by name.

use std::error::Error;
use std::fmt;

/// Why a call was refused: the number of the reason and the page that it tells.
///
/// Its text is the reason in words, with the page if the reason has one:
///
/// ```
/// use owfs::{Reason, Refusal};
///
/// let refusal = Refusal { number: 2, page: 7 };
/// assert_eq!(refusal.reason(), Reason::Packet);
/// assert_eq!(refusal.to_string(), "packet length or check is wrong, page 7 (refusal 2)");
/// ```
#[derive(Clone, Copy, Debug, PartialEq, Eq, Hash)]
pub struct Refusal {
    /// The number, 1 to 18, 20 to 22, 24 or 25.
    pub number: u32,
    /// The page, as the reason's description says; 0 if it tells none.
    pub page: u32,
}

/// The reasons of refusals.
#[derive(Clone, Copy, Debug, PartialEq, Eq, Hash)]
pub enum Reason {
    /// 1: page length, page count, image length or owner table is wrong. No page.
    Arguments,
    /// 2: packet length or check is wrong. That page.
    Packet,
    /// 3: marker is wrong. That page.
    Marker,
    /// 4: control field is wrong, or local bitmap with more than 32 pages. That page.
    Control,
    /// 5: work is in progress. No page.
    InProgress,
    /// 6: start page is 0 or past the last page, or pointer is past it. The page that holds the number.
    PageNumber,
    /// 7: page is in two chains or twice in one. That page.
    Crossed,
    /// 8: page count or bitmap byte count is wrong, or entries are not whole. The page that holds the entry or entries; 0 for the bitmap file.
    Count,
    /// 9: name is malformed. The page of the entry.
    Name,
    /// 10: extension is 100 to 126, or an extended entry has no entry after it in its page. The page of the entry.
    Extension,
    /// 11: name and extension are there twice. The page of the later entry.
    Twice,
    /// 12: directories are nested too deep. The page of the entry.
    TooDeep,
    /// 13: bitmap disagrees with the pages in use. The lowest differing bit.
    Bitmap,
    /// 14: path is malformed. No page.
    Path,
    /// 15: file, directory or entry number is absent. No page.
    Absent,
    /// 16: file is read-only. No page.
    ReadOnly,
    /// 17: there is no room. No page.
    NoRoom,
    /// 18: output is too short. No page.
    Output,
    /// 20: the directory to be removed has entries. No page.
    NotEmpty,
    /// 21: a directory of that name is already there. No page.
    AlreadyThere,
    /// 22: a directory on the path is hidden. No page.
    Hidden,
    /// 24: count file is malformed, or the report has 4,096 files. No page.
    CountFile,
    /// 25: a range is above 1,000, the version is neither 1 nor 2, version 2's K is not 1 to 1,000, or the weighted sum would pass 64 bits. No page.
    Weight,
    /// Any other number; no call is refused with one.
    Other(u32),
}

/// The reasons with their numbers; 19 is the program `list`'s, 23 is no call's.
const REASONS: [(u32, Reason); 23] = [
    (1, Reason::Arguments),
    (2, Reason::Packet),
    (3, Reason::Marker),
    (4, Reason::Control),
    (5, Reason::InProgress),
    (6, Reason::PageNumber),
    (7, Reason::Crossed),
    (8, Reason::Count),
    (9, Reason::Name),
    (10, Reason::Extension),
    (11, Reason::Twice),
    (12, Reason::TooDeep),
    (13, Reason::Bitmap),
    (14, Reason::Path),
    (15, Reason::Absent),
    (16, Reason::ReadOnly),
    (17, Reason::NoRoom),
    (18, Reason::Output),
    (20, Reason::NotEmpty),
    (21, Reason::AlreadyThere),
    (22, Reason::Hidden),
    (24, Reason::CountFile),
    (25, Reason::Weight),
];

impl Refusal {
    /// The reason, to match on.
    pub fn reason(&self) -> Reason {
        Reason::from(self.number)
    }
}

impl From<u32> for Reason {
    /// The reason with this number.
    fn from(number: u32) -> Reason {
        REASONS
            .into_iter()
            .find(|(other, _)| *other == number)
            .map_or(Reason::Other(number), |(_, reason)| reason)
    }
}

impl From<Reason> for u32 {
    /// The reason's number.
    fn from(reason: Reason) -> u32 {
        reason.number()
    }
}

impl Reason {
    /// The reason's number.
    pub fn number(self) -> u32 {
        match self {
            Reason::Other(number) => number,
            _ => REASONS
                .into_iter()
                .find(|(_, other)| *other == self)
                .map_or(0, |(number, _)| number),
        }
    }

    /// The reason in words.
    fn words(self) -> &'static str {
        match self {
            Reason::Arguments => "page length, page count, image length or owner table is wrong",
            Reason::Packet => "packet length or check is wrong",
            Reason::Marker => "marker is wrong",
            Reason::Control => "control field is wrong, or local bitmap with more than 32 pages",
            Reason::InProgress => "work is in progress",
            Reason::PageNumber => "start page is 0 or past the last page, or pointer is past it",
            Reason::Crossed => "page is in two chains or twice in one",
            Reason::Count => "page count or bitmap byte count is wrong, or entries are not whole",
            Reason::Name => "name is malformed",
            Reason::Extension => "extension is 100 to 126, or extended entry has no entry after it",
            Reason::Twice => "name and extension are there twice",
            Reason::TooDeep => "directories are nested too deep",
            Reason::Bitmap => "bitmap disagrees with the pages in use",
            Reason::Path => "path is malformed",
            Reason::Absent => "file, directory or entry number is absent",
            Reason::ReadOnly => "file is read-only",
            Reason::NoRoom => "there is no room",
            Reason::Output => "output is too short",
            Reason::NotEmpty => "directory has entries",
            Reason::AlreadyThere => "a directory of that name is already there",
            Reason::Hidden => "a directory on the path is hidden",
            Reason::CountFile => "count file is malformed, or the report has 4,096 files",
            Reason::Weight => {
                "range above 1,000, version neither 1 nor 2, K not 1 to 1,000, or weighted sum past 64 bits"
            }
            Reason::Other(_) => "reason is not known",
        }
    }

    /// Whether the refusal's page says something.
    fn tells_page(self) -> bool {
        !matches!(
            self,
            Reason::Arguments
                | Reason::InProgress
                | Reason::Path
                | Reason::Absent
                | Reason::ReadOnly
                | Reason::NoRoom
                | Reason::Output
                | Reason::NotEmpty
                | Reason::AlreadyThere
                | Reason::Hidden
                | Reason::CountFile
                | Reason::Weight
        )
    }
}

impl fmt::Display for Reason {
    fn fmt(&self, formatter: &mut fmt::Formatter<'_>) -> fmt::Result {
        formatter.write_str(self.words())
    }
}

impl fmt::Display for Refusal {
    fn fmt(&self, formatter: &mut fmt::Formatter<'_>) -> fmt::Result {
        let reason = self.reason();
        write!(formatter, "{reason}")?;
        if reason.tells_page() {
            write!(formatter, ", page {}", self.page)?;
        }
        write!(formatter, " (refusal {})", self.number)
    }
}

impl Error for Refusal {}

#[cfg(test)]
mod tests {
    use super::{Reason, Refusal, REASONS};

    #[test]
    fn numbers_and_reasons_are_one_to_one() {
        for (number, reason) in REASONS {
            assert_eq!(Reason::from(number), reason);
            assert_eq!(reason.number(), number);
            assert_eq!(u32::from(reason), number);
        }
        for number in [0, 19, 23, 26, 256, 276, 277, 278, 280, 281, u32::MAX] {
            assert_eq!(Reason::from(number), Reason::Other(number));
            assert_eq!(Reason::Other(number).number(), number);
        }
    }

    #[test]
    fn reasons_have_the_numbers_of_documents_01_and_02() {
        let known = [
            (1, Reason::Arguments),
            (7, Reason::Crossed),
            (13, Reason::Bitmap),
            (14, Reason::Path),
            (17, Reason::NoRoom),
            (18, Reason::Output),
            (20, Reason::NotEmpty),
            (21, Reason::AlreadyThere),
            (22, Reason::Hidden),
            (24, Reason::CountFile),
            (25, Reason::Weight),
        ];
        for (number, reason) in known {
            assert_eq!(reason.number(), number);
        }
    }

    #[test]
    fn words_are_different() {
        let mut words = REASONS.map(|(_, reason)| reason.words()).to_vec();
        words.sort_unstable();
        words.dedup();
        assert_eq!(words.len(), REASONS.len());
    }

    #[test]
    fn the_page_is_told_if_there_is_one() {
        let text = |number, page| Refusal { number, page }.to_string();
        assert_eq!(
            text(7, 300),
            "page is in two chains or twice in one, page 300 (refusal 7)"
        );
        assert_eq!(text(3, 0), "marker is wrong, page 0 (refusal 3)");
        assert_eq!(text(5, 0), "work is in progress (refusal 5)");
        assert_eq!(text(17, 0), "there is no room (refusal 17)");
        assert_eq!(text(20, 0), "directory has entries (refusal 20)");
        assert_eq!(
            text(21, 0),
            "a directory of that name is already there (refusal 21)"
        );
        assert_eq!(
            text(22, 0),
            "a directory on the path is hidden (refusal 22)"
        );
        assert_eq!(
            text(24, 0),
            "count file is malformed, or the report has 4,096 files (refusal 24)"
        );
        assert_eq!(
            text(25, 0),
            "range above 1,000, version neither 1 nor 2, K not 1 to 1,000, or weighted sum past 64 bits (refusal 25)"
        );
    }
}
