//! The fifteen functions of `include/owfs.h` over slices, with the answers as C has them: number and page beside every other field.
//!
//! This is the only module with unsafe code. The functions of the crate's root are made of these and are what most callers want; these are for
//! those who compare whole answers, the fields of a refusal too.
//!
//! A slice that a call writes overlaps no other, since it is borrowed for the call alone; slices that are only read may overlap.

/// `struct owfs_totals`: number 0, page 0 and the totals, or a refusal's number and page with every other field 0.
#[repr(C)]
#[derive(Clone, Copy, Debug, PartialEq, Eq, Hash)]
pub struct Totals {
    /// 0, or the refusal's number.
    pub number: u32,
    /// The page that the refusal tells.
    pub page: u32,
    /// Pages in use.
    pub used: u32,
    /// Files; the bitmap file is not counted.
    pub files: u32,
    /// Directories; the root is not counted.
    pub directories: u32,
}

/// `struct owfs_entry`: number 0, page 0 and what a line of `list` shows, or a refusal's number and page with every other field 0.
#[repr(C)]
#[derive(Clone, Copy, Debug, PartialEq, Eq, Hash)]
pub struct Entry {
    /// 0, or the refusal's number.
    pub number: u32,
    /// The page that the refusal tells.
    pub page: u32,
    /// The level of the directory that holds the entry, 0 for the root.
    pub level: u32,
    /// The four bytes of the name as stored, blanks too, the first byte lowest.
    pub name: u32,
    /// The extension number: 0 to 99 a file, 127 a directory.
    pub extension: u32,
    /// 1 for a read-only file or a hidden directory, else 0.
    pub attribute: u32,
    /// The start page.
    pub start: u32,
    /// The pages as in the entry, 0 for a directory.
    pub pages: u32,
    /// The bytes of a file, 0 for a directory.
    pub length: u32,
}

/// `struct owfs_length`: number 0, page 0 and the file's length, or a refusal's number and page with length 0.
#[repr(C)]
#[derive(Clone, Copy, Debug, PartialEq, Eq, Hash)]
pub struct Length {
    /// 0, or the refusal's number.
    pub number: u32,
    /// The page that the refusal tells.
    pub page: u32,
    /// The bytes of the file.
    pub length: u32,
}

/// `struct owfs_answer`: number 0 and page 0, or a refusal's number and page.
#[repr(C)]
#[derive(Clone, Copy, Debug, PartialEq, Eq, Hash)]
pub struct Answer {
    /// 0, or the refusal's number.
    pub number: u32,
    /// The page that the refusal tells.
    pub page: u32,
}

/// `struct owfs_writes`: number 0, page 0, the page writes made and whether any are left, or a refusal's number and page with both 0.
#[repr(C)]
#[derive(Clone, Copy, Debug, PartialEq, Eq, Hash)]
pub struct Writes {
    /// 0, or the refusal's number.
    pub number: u32,
    /// The page that the refusal tells.
    pub page: u32,
    /// The page writes made.
    pub made: u32,
    /// 1 if writes are left, else 0.
    pub left: u32,
}

/// `struct owfs_mended`: number 0, page 0 and the marks cleared, or a refusal's number and page with 0 marks.
#[repr(C)]
#[derive(Clone, Copy, Debug, PartialEq, Eq, Hash)]
pub struct Mended {
    /// 0, or the refusal's number.
    pub number: u32,
    /// The page that the refusal tells.
    pub page: u32,
    /// The marks cleared.
    pub cleared: u32,
}

/// `struct owfs_report`: what a report has totalled so far. Any numbers may stand here; a report that only the calls have changed has those that are told.
#[repr(C)]
#[derive(Clone, Copy, Debug, PartialEq, Eq, Hash)]
pub struct Report {
    /// The cycles of all rows of the files counted.
    pub cycles: u64,
    /// The near misses: the cycles of the rows whose doubled peak is below the limit by no more than the margin.
    pub near: u64,
    /// The weighted sum, 0 in a report without weight; that of version 2 is carried times K squared.
    pub weight: u64,
    /// The limit.
    pub limit: i32,
    /// The greatest doubled peak, 0 while there is none.
    pub greatest: i32,
    /// 1 if there is a greatest doubled peak, else 0.
    pub has_greatest: u32,
    /// The margin, 0 to 65,535.
    pub margin: u32,
    /// 0 in a report without weight, 1 or 2 in one that carries that version; any other number is a version that no report has.
    pub version: u32,
    /// K, which only version 2 looks at; 0 in a report without weight.
    pub knee: u32,
    /// The files counted, 0 to 4,096.
    pub files: u32,
}

/// `struct owfs_added`: number 0, page 0 and the new report, or a refusal's number, page 0 and the report that was given.
#[repr(C)]
#[derive(Clone, Copy, Debug, PartialEq, Eq, Hash)]
pub struct Added {
    /// 0, or the refusal's number.
    pub number: u32,
    /// 0.
    pub page: u32,
    /// The report.
    pub report: Report,
}

extern "C" {
    fn owfs_crc16(start: u16, bytes: *const u8, length: usize) -> u16;

    fn owfs_check(
        page_length: u32,
        page_count: u32,
        image: *const u8,
        image_length: usize,
        owners: *mut u8,
        owners_length: usize,
    ) -> Totals;

    fn owfs_list(
        page_length: u32,
        page_count: u32,
        image: *const u8,
        image_length: usize,
        owners: *mut u8,
        owners_length: usize,
        position: u32,
    ) -> Entry;

    fn owfs_read(
        page_length: u32,
        page_count: u32,
        image: *const u8,
        image_length: usize,
        path: *const u8,
        path_length: usize,
        out: *mut u8,
        out_length: usize,
        owners: *mut u8,
        owners_length: usize,
    ) -> Length;

    fn owfs_format(
        page_length: u32,
        page_count: u32,
        image: *mut u8,
        image_length: usize,
        owners: *mut u8,
        owners_length: usize,
        local: u32,
    ) -> Answer;

    fn owfs_put(
        page_length: u32,
        page_count: u32,
        image: *mut u8,
        image_length: usize,
        path: *const u8,
        path_length: usize,
        bytes: *const u8,
        bytes_length: usize,
        owners: *mut u8,
        owners_length: usize,
    ) -> Answer;

    fn owfs_delete(
        page_length: u32,
        page_count: u32,
        image: *mut u8,
        image_length: usize,
        path: *const u8,
        path_length: usize,
        owners: *mut u8,
        owners_length: usize,
    ) -> Answer;

    fn owfs_make_directory(
        page_length: u32,
        page_count: u32,
        image: *mut u8,
        image_length: usize,
        path: *const u8,
        path_length: usize,
        owners: *mut u8,
        owners_length: usize,
    ) -> Answer;

    fn owfs_remove_directory(
        page_length: u32,
        page_count: u32,
        image: *mut u8,
        image_length: usize,
        path: *const u8,
        path_length: usize,
        owners: *mut u8,
        owners_length: usize,
    ) -> Answer;

    fn owfs_careful_put(
        page_length: u32,
        page_count: u32,
        image: *mut u8,
        image_length: usize,
        path: *const u8,
        path_length: usize,
        bytes: *const u8,
        bytes_length: usize,
        owners: *mut u8,
        owners_length: usize,
        allowed: u32,
    ) -> Writes;

    fn owfs_careful_delete(
        page_length: u32,
        page_count: u32,
        image: *mut u8,
        image_length: usize,
        path: *const u8,
        path_length: usize,
        owners: *mut u8,
        owners_length: usize,
        allowed: u32,
    ) -> Writes;

    fn owfs_mend(
        page_length: u32,
        page_count: u32,
        image: *mut u8,
        image_length: usize,
        owners: *mut u8,
        owners_length: usize,
    ) -> Mended;

    fn owfs_gather(
        page_length: u32,
        page_count: u32,
        image: *const u8,
        image_length: usize,
        copy: *mut u8,
        copy_length: usize,
        owners: *mut u8,
        owners_length: usize,
    ) -> Answer;

    fn owfs_report_start(limit: i32, margin: u16) -> Report;

    fn owfs_report_start_weighted(limit: i32, margin: u16, version: u32, knee: u32) -> Report;

    fn owfs_report_add(report: Report, file: *const u8, length: usize) -> Added;
}

/// [`crate::crc16`].
pub fn crc16(start: u16, bytes: &[u8]) -> u16 {
    // SAFETY: any start is taken; pointer and length are those of a slice that is only read.
    unsafe { owfs_crc16(start, bytes.as_ptr(), bytes.len()) }
}

/// [`crate::check`] with the whole answer.
pub fn check(page_length: u32, page_count: u32, image: &[u8], owners: &mut [u8]) -> Totals {
    // SAFETY: any numbers are taken; pointers and lengths are those of slices, and the one that is written overlaps no other.
    unsafe {
        owfs_check(
            page_length,
            page_count,
            image.as_ptr(),
            image.len(),
            owners.as_mut_ptr(),
            owners.len(),
        )
    }
}

/// [`crate::list`] with the whole answer.
pub fn list(
    page_length: u32,
    page_count: u32,
    image: &[u8],
    owners: &mut [u8],
    position: u32,
) -> Entry {
    // SAFETY: any numbers are taken; pointers and lengths are those of slices, and the one that is written overlaps no other.
    unsafe {
        owfs_list(
            page_length,
            page_count,
            image.as_ptr(),
            image.len(),
            owners.as_mut_ptr(),
            owners.len(),
            position,
        )
    }
}

/// [`crate::read`] with the whole answer.
pub fn read(
    page_length: u32,
    page_count: u32,
    image: &[u8],
    path: &[u8],
    out: &mut [u8],
    owners: &mut [u8],
) -> Length {
    // SAFETY: any numbers are taken; pointers and lengths are those of slices, and those that are written overlap no other.
    unsafe {
        owfs_read(
            page_length,
            page_count,
            image.as_ptr(),
            image.len(),
            path.as_ptr(),
            path.len(),
            out.as_mut_ptr(),
            out.len(),
            owners.as_mut_ptr(),
            owners.len(),
        )
    }
}

/// [`crate::format`] with the whole answer: `local` 0 asks for a bitmap file, any other number for a local bitmap.
pub fn format(
    page_length: u32,
    page_count: u32,
    image: &mut [u8],
    owners: &mut [u8],
    local: u32,
) -> Answer {
    // SAFETY: any numbers are taken; pointers and lengths are those of slices, and those that are written overlap no other.
    unsafe {
        owfs_format(
            page_length,
            page_count,
            image.as_mut_ptr(),
            image.len(),
            owners.as_mut_ptr(),
            owners.len(),
            local,
        )
    }
}

/// [`crate::put`] with the whole answer.
pub fn put(
    page_length: u32,
    page_count: u32,
    image: &mut [u8],
    path: &[u8],
    bytes: &[u8],
    owners: &mut [u8],
) -> Answer {
    // SAFETY: any numbers are taken; pointers and lengths are those of slices, and those that are written overlap no other.
    unsafe {
        owfs_put(
            page_length,
            page_count,
            image.as_mut_ptr(),
            image.len(),
            path.as_ptr(),
            path.len(),
            bytes.as_ptr(),
            bytes.len(),
            owners.as_mut_ptr(),
            owners.len(),
        )
    }
}

/// [`crate::delete`] with the whole answer.
pub fn delete(
    page_length: u32,
    page_count: u32,
    image: &mut [u8],
    path: &[u8],
    owners: &mut [u8],
) -> Answer {
    // SAFETY: any numbers are taken; pointers and lengths are those of slices, and those that are written overlap no other.
    unsafe {
        owfs_delete(
            page_length,
            page_count,
            image.as_mut_ptr(),
            image.len(),
            path.as_ptr(),
            path.len(),
            owners.as_mut_ptr(),
            owners.len(),
        )
    }
}

/// [`crate::make_directory`] with the whole answer.
pub fn make_directory(
    page_length: u32,
    page_count: u32,
    image: &mut [u8],
    path: &[u8],
    owners: &mut [u8],
) -> Answer {
    // SAFETY: any numbers are taken; pointers and lengths are those of slices, and those that are written overlap no other.
    unsafe {
        owfs_make_directory(
            page_length,
            page_count,
            image.as_mut_ptr(),
            image.len(),
            path.as_ptr(),
            path.len(),
            owners.as_mut_ptr(),
            owners.len(),
        )
    }
}

/// [`crate::remove_directory`] with the whole answer.
pub fn remove_directory(
    page_length: u32,
    page_count: u32,
    image: &mut [u8],
    path: &[u8],
    owners: &mut [u8],
) -> Answer {
    // SAFETY: any numbers are taken; pointers and lengths are those of slices, and those that are written overlap no other.
    unsafe {
        owfs_remove_directory(
            page_length,
            page_count,
            image.as_mut_ptr(),
            image.len(),
            path.as_ptr(),
            path.len(),
            owners.as_mut_ptr(),
            owners.len(),
        )
    }
}

/// [`crate::careful_put`] with the whole answer.
pub fn careful_put(
    page_length: u32,
    page_count: u32,
    image: &mut [u8],
    path: &[u8],
    bytes: &[u8],
    owners: &mut [u8],
    allowed: u32,
) -> Writes {
    // SAFETY: any numbers are taken; pointers and lengths are those of slices, and those that are written overlap no other.
    unsafe {
        owfs_careful_put(
            page_length,
            page_count,
            image.as_mut_ptr(),
            image.len(),
            path.as_ptr(),
            path.len(),
            bytes.as_ptr(),
            bytes.len(),
            owners.as_mut_ptr(),
            owners.len(),
            allowed,
        )
    }
}

/// [`crate::careful_delete`] with the whole answer.
pub fn careful_delete(
    page_length: u32,
    page_count: u32,
    image: &mut [u8],
    path: &[u8],
    owners: &mut [u8],
    allowed: u32,
) -> Writes {
    // SAFETY: any numbers are taken; pointers and lengths are those of slices, and those that are written overlap no other.
    unsafe {
        owfs_careful_delete(
            page_length,
            page_count,
            image.as_mut_ptr(),
            image.len(),
            path.as_ptr(),
            path.len(),
            owners.as_mut_ptr(),
            owners.len(),
            allowed,
        )
    }
}

/// [`crate::mend`] with the whole answer.
pub fn mend(page_length: u32, page_count: u32, image: &mut [u8], owners: &mut [u8]) -> Mended {
    // SAFETY: any numbers are taken; pointers and lengths are those of slices, and those that are written overlap no other.
    unsafe {
        owfs_mend(
            page_length,
            page_count,
            image.as_mut_ptr(),
            image.len(),
            owners.as_mut_ptr(),
            owners.len(),
        )
    }
}

/// [`crate::gather`] with the whole answer.
pub fn gather(
    page_length: u32,
    page_count: u32,
    image: &[u8],
    copy: &mut [u8],
    owners: &mut [u8],
) -> Answer {
    // SAFETY: any numbers are taken; pointers and lengths are those of slices, and those that are written overlap no other.
    unsafe {
        owfs_gather(
            page_length,
            page_count,
            image.as_ptr(),
            image.len(),
            copy.as_mut_ptr(),
            copy.len(),
            owners.as_mut_ptr(),
            owners.len(),
        )
    }
}

/// [`crate::Report::start`] with the whole report.
pub fn report_start(limit: i32, margin: u16) -> Report {
    // SAFETY: any numbers are taken.
    unsafe { owfs_report_start(limit, margin) }
}

/// [`crate::Report::start_weighted`] with the whole report: any version but 1 and 2 is kept as 0xFFFFFFFF with K 0.
pub fn report_start_weighted(limit: i32, margin: u16, version: u32, knee: u32) -> Report {
    // SAFETY: any numbers are taken.
    unsafe { owfs_report_start_weighted(limit, margin, version, knee) }
}

/// [`crate::Report::add`] with the whole answer.
pub fn report_add(report: Report, file: &[u8]) -> Added {
    // SAFETY: any report is taken; pointer and length are those of a slice that is only read.
    unsafe { owfs_report_add(report, file.as_ptr(), file.len()) }
}
