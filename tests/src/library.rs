//! The library's calls, with their answers as the second program's types.

use owfs::raw;
use referee::{Added, Answer, Length, Listing, Mended, Report, Totals, Writes};

pub use owfs::crc16;

/// Number and page of an edit.
fn answer(told: raw::Answer) -> Answer {
    Answer {
        number: told.number,
        page: told.page,
    }
}

/// The answer of a careful call.
fn writes(told: raw::Writes) -> Writes {
    Writes {
        number: told.number,
        page: told.page,
        made: told.made,
        left: told.left,
    }
}

/// Checks an image.
pub fn check(page_length: u32, page_count: u32, image: &[u8], owners: &mut [u8]) -> Totals {
    let told = raw::check(page_length, page_count, image, owners);
    Totals {
        number: told.number,
        page: told.page,
        used: told.used,
        files: told.files,
        directories: told.directories,
    }
}

/// Lists the entry at a position in walk order.
pub fn list(
    page_length: u32,
    page_count: u32,
    image: &[u8],
    owners: &mut [u8],
    position: u32,
) -> Listing {
    let told = raw::list(page_length, page_count, image, owners, position);
    Listing {
        number: told.number,
        page: told.page,
        level: told.level,
        name: told.name,
        extension: told.extension,
        attribute: told.attribute,
        start: told.start,
        pages: told.pages,
        length: told.length,
    }
}

/// Reads a file into the front of `out`.
pub fn read(
    page_length: u32,
    page_count: u32,
    image: &[u8],
    path: &[u8],
    out: &mut [u8],
    owners: &mut [u8],
) -> Length {
    let told = raw::read(page_length, page_count, image, path, out, owners);
    Length {
        number: told.number,
        page: told.page,
        length: told.length,
    }
}

/// Formats an image: `local` 0 asks for a bitmap file, any other number for a local bitmap.
pub fn format(
    page_length: u32,
    page_count: u32,
    image: &mut [u8],
    owners: &mut [u8],
    local: u32,
) -> Answer {
    answer(raw::format(page_length, page_count, image, owners, local))
}

/// Makes or replaces a file.
pub fn put(
    page_length: u32,
    page_count: u32,
    image: &mut [u8],
    path: &[u8],
    bytes: &[u8],
    owners: &mut [u8],
) -> Answer {
    let told = raw::put(page_length, page_count, image, path, bytes, owners);
    answer(told)
}

/// Deletes a file.
pub fn delete(
    page_length: u32,
    page_count: u32,
    image: &mut [u8],
    path: &[u8],
    owners: &mut [u8],
) -> Answer {
    answer(raw::delete(page_length, page_count, image, path, owners))
}

/// Makes a directory without entries.
pub fn make_directory(
    page_length: u32,
    page_count: u32,
    image: &mut [u8],
    path: &[u8],
    owners: &mut [u8],
) -> Answer {
    let (p, n) = (page_length, page_count);
    answer(raw::make_directory(p, n, image, path, owners))
}

/// Removes a directory that has no entries.
pub fn remove_directory(
    page_length: u32,
    page_count: u32,
    image: &mut [u8],
    path: &[u8],
    owners: &mut [u8],
) -> Answer {
    let (p, n) = (page_length, page_count);
    answer(raw::remove_directory(p, n, image, path, owners))
}

/// Makes or replaces a file by at most `allowed` page writes.
pub fn careful_put(
    page_length: u32,
    page_count: u32,
    image: &mut [u8],
    path: &[u8],
    bytes: &[u8],
    owners: &mut [u8],
    allowed: u32,
) -> Writes {
    let (p, n) = (page_length, page_count);
    writes(raw::careful_put(p, n, image, path, bytes, owners, allowed))
}

/// Deletes a file by at most `allowed` page writes.
pub fn careful_delete(
    page_length: u32,
    page_count: u32,
    image: &mut [u8],
    path: &[u8],
    owners: &mut [u8],
    allowed: u32,
) -> Writes {
    let (p, n) = (page_length, page_count);
    writes(raw::careful_delete(p, n, image, path, owners, allowed))
}

/// Clears the marks of pages that no chain has.
pub fn mend(page_length: u32, page_count: u32, image: &mut [u8], owners: &mut [u8]) -> Mended {
    let told = raw::mend(page_length, page_count, image, owners);
    Mended {
        number: told.number,
        page: told.page,
        cleared: told.cleared,
    }
}

/// Builds a gathered copy of an image.
pub fn gather(
    page_length: u32,
    page_count: u32,
    image: &[u8],
    copy: &mut [u8],
    owners: &mut [u8],
) -> Answer {
    answer(raw::gather(page_length, page_count, image, copy, owners))
}

/// A report of the library.
fn report(told: raw::Report) -> Report {
    Report {
        cycles: told.cycles,
        near: told.near,
        weight: told.weight,
        limit: told.limit,
        greatest: told.greatest,
        has_greatest: told.has_greatest,
        margin: told.margin,
        version: told.version,
        knee: told.knee,
        files: told.files,
    }
}

/// Starts a report.
pub fn report_start(limit: i32, margin: u16) -> Report {
    report(raw::report_start(limit, margin))
}

/// Starts a report that carries a version with its K.
pub fn report_start_weighted(limit: i32, margin: u16, version: u32, knee: u32) -> Report {
    report(raw::report_start_weighted(limit, margin, version, knee))
}

/// Adds a count file to a report.
pub fn report_add(given: Report, file: &[u8]) -> Added {
    let given = raw::Report {
        cycles: given.cycles,
        near: given.near,
        weight: given.weight,
        limit: given.limit,
        greatest: given.greatest,
        has_greatest: given.has_greatest,
        margin: given.margin,
        version: given.version,
        knee: given.knee,
        files: given.files,
    };
    let told = raw::report_add(given, file);
    Added {
        number: told.number,
        page: told.page,
        report: report(told.report),
    }
}
