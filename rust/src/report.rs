//! Reports on count files.

use crate::calls::done;
use crate::raw;
use crate::refusal::Refusal;

/// How a report weighs a cycle of a row.
#[derive(Clone, Copy, Debug, PartialEq, Eq, Hash)]
pub enum Weighting {
    /// Version 1: by the cube of the range.
    Version1,
    /// Version 2: by the cube of the range at and above the knee K, below it by the fifth power divided by K squared. The sum is carried times K squared,
    /// so that it is whole.
    Version2 {
        /// K, 1 to 1,000. Any other is taken too, and every well-formed file is then refused with 25.
        knee: u32,
    },
}

/// A report: the totals of the count files that were added to it. Only [`Report::start`], [`Report::start_weighted`] and [`Report::add`] make and
/// change one.
///
/// A count file has a header of two numbers of 16 bits, row count and offset of the first row, then rows of eight bytes: mean stress (signed 16 bits),
/// range (unsigned 16) and cycles (unsigned 32), low byte first. The offset is at least 4 and, plus eight for each row, is the file's length; bytes
/// between header and offset may be any.
///
/// The doubled peak of a row is twice its mean plus its range. A near miss is a cycle whose doubled peak is below the limit by no more than the margin;
/// one at the limit is none.
///
/// ```
/// use owfs::{Reason, Report};
///
/// let mut report = Report::start(900, 50);
/// assert_eq!(report.greatest(), None);
///
/// // One row: mean 250, range 380, 3 cycles. Its doubled peak is 880.
/// let file = [1, 0, 4, 0, 250, 0, 124, 1, 3, 0, 0, 0];
/// report.add(&file)?;
/// assert_eq!((report.files(), report.cycles()), (1, 3));
/// assert_eq!((report.greatest(), report.near_misses()), (Some(880), 3));
///
/// // A file that is cut is refused, and the report stays as it was.
/// let before = report;
/// let refusal = report.add(&file[..11]).unwrap_err();
/// assert_eq!(refusal.reason(), Reason::CountFile);
/// assert_eq!(report, before);
/// # Ok::<(), owfs::Refusal>(())
/// ```
#[derive(Clone, Copy, Debug, PartialEq, Eq, Hash)]
pub struct Report {
    told: raw::Report,
}

impl Report {
    /// An empty report without weight, with its limit and margin.
    pub fn start(limit: i32, margin: u16) -> Report {
        Report {
            told: raw::report_start(limit, margin),
        }
    }

    /// An empty report that carries a weight, with its limit and margin. Nothing is refused here.
    ///
    /// ```
    /// use owfs::{Report, Weighting};
    ///
    /// // One row: mean 0, range 9, 2 cycles.
    /// let file = [1, 0, 4, 0, 0, 0, 9, 0, 2, 0, 0, 0];
    /// let mut report = Report::start_weighted(900, 50, Weighting::Version1);
    /// report.add(&file)?;
    /// assert_eq!(report.weight(), 2 * 9 * 9 * 9);
    ///
    /// // Below the knee the fifth power divided by K squared, and the sum times K squared.
    /// let mut report = Report::start_weighted(900, 50, Weighting::Version2 { knee: 10 });
    /// report.add(&file)?;
    /// assert_eq!(report.weight(), 2 * 9 * 9 * 9 * 9 * 9);
    /// # Ok::<(), owfs::Refusal>(())
    /// ```
    pub fn start_weighted(limit: i32, margin: u16, weighting: Weighting) -> Report {
        let (version, knee) = match weighting {
            Weighting::Version1 => (1, 0),
            Weighting::Version2 { knee } => (2, knee),
        };
        Report {
            told: raw::report_start_weighted(limit, margin, version, knee),
        }
    }

    /// Adds a count file. After a refusal the report is as before. For up to 4,096 files that are added their order changes nothing; in a report with a
    /// weight it may decide which file would bring the weighted sum past 64 bits and is refused.
    ///
    /// # Errors
    ///
    /// 24 if the file is malformed or the report has 4,096 files already; then, only in a report with a weight, 25 if a range is above 1,000, also of a
    /// row of 0 cycles, if version 2's K is not 1 to 1,000, or if the weighted sum would pass 64 bits.
    pub fn add(&mut self, file: &[u8]) -> Result<(), Refusal> {
        let added = raw::report_add(self.told, file);
        done(added.number, added.page)?;
        self.told = added.report;
        Ok(())
    }

    /// The limit.
    pub fn limit(&self) -> i32 {
        self.told.limit
    }

    /// The margin, 0 to 65,535.
    pub fn margin(&self) -> u32 {
        self.told.margin
    }

    /// The files counted, at most 4,096.
    pub fn files(&self) -> u32 {
        self.told.files
    }

    /// The cycles of all rows.
    pub fn cycles(&self) -> u64 {
        self.told.cycles
    }

    /// The greatest doubled peak of a row, also of one of 0 cycles; none without rows.
    pub fn greatest(&self) -> Option<i32> {
        (self.told.has_greatest != 0).then_some(self.told.greatest)
    }

    /// The near misses.
    pub fn near_misses(&self) -> u64 {
        self.told.near
    }

    /// The weight that the report carries; none if it is without weight. A report of this type has no other version than 1 and 2.
    pub fn weighting(&self) -> Option<Weighting> {
        match self.told.version {
            1 => Some(Weighting::Version1),
            2 => Some(Weighting::Version2 {
                knee: self.told.knee,
            }),
            _ => None,
        }
    }

    /// The sum over all rows of cycles times weight, 0 in a report without weight; that of version 2 is carried times K squared.
    pub fn weight(&self) -> u64 {
        self.told.weight
    }
}
