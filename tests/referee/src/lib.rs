//! A second implementation of the file structure of document 01: check, list, read, format, put, delete; and of document 02's careful put, careful
//! delete and mend (A4), owner records (A8), stamps, that is extended entries before the entry they belong to (A2), hidden directories, which
//! refuse edits (A6), making and removing directories (A1), gathering (A7), and reports on count files (A11), which may have a weight (A12).
//!
//! It is written from the specification alone and serves as a referee for another implementation.
//! Numbers are `u32` as a C caller gives them; the owner table is bytes, four for each page.

mod answer;
mod bitmap;
mod careful;
mod check;
mod control;
mod crc;
mod directory;
mod edit;
mod entry;
mod gather;
pub mod geometry;
mod list_text;
mod mend;
mod names;
pub mod owners;
mod packet;
mod path;
mod report;
mod tree;

pub mod builder;
pub mod rng;

pub use answer::{Answer, Length, Listing, Mended, Totals, Writes};
pub use crc::{check_bytes, crc16};
pub use report::{
    add as report_add, start as report_start, start_weighted as report_start_weighted, Added,
    Report,
};

use answer::Fault;
use careful::WriteList;
use geometry::Geometry;
use tree::{Entry, Tree};

/// Checks an image and tells pages in use, files and directories.
pub fn check(page_length: u32, page_count: u32, image: &[u8], owners: &mut [u8]) -> Totals {
    let judged = judge_arguments(page_length, page_count, image, owners)
        .and_then(|geometry| judge_image(&geometry, image, owners));
    match judged {
        Ok(tree) => tree.totals(),
        Err(answer) => answer.into(),
    }
}

/// Lists the entry at a position in walk order, from 0; 15 at or past the end.
pub fn list(
    page_length: u32,
    page_count: u32,
    image: &[u8],
    owners: &mut [u8],
    position: u32,
) -> Listing {
    let judged = judge_arguments(page_length, page_count, image, owners)
        .and_then(|geometry| judge_image(&geometry, image, owners));
    let tree = match judged {
        Ok(tree) => tree,
        Err(answer) => return answer.into(),
    };
    match tree.walk().get(position as usize) {
        Some((level, entry)) => listing(*level, entry),
        None => Fault::Absent.at(0).into(),
    }
}

/// Reads a file into the front of `out` and tells its length.
pub fn read(
    page_length: u32,
    page_count: u32,
    image: &[u8],
    path: &[u8],
    out: &mut [u8],
    owners: &mut [u8],
) -> Length {
    let outcome = judge_arguments(page_length, page_count, image, owners).and_then(|geometry| {
        let tree = judge_image(&geometry, image, owners)?;
        edit::read(&geometry, image, &tree, path, out)
    });
    match outcome {
        Ok(length) => Length {
            number: 0,
            page: 0,
            length: length as u32,
        },
        Err(answer) => answer.into(),
    }
}

/// Formats an image: `local` 0 asks for a bitmap file, any other number for a local bitmap.
pub fn format(
    page_length: u32,
    page_count: u32,
    image: &mut [u8],
    owners: &mut [u8],
    local: u32,
) -> Answer {
    let outcome = judge_arguments(page_length, page_count, image, owners).and_then(|geometry| {
        let formatted = edit::format(&geometry, image, local != 0);
        tell_owners(&geometry, image, owners);
        formatted
    });
    done_or_refusal(outcome)
}

/// Makes or replaces a file.
pub fn put(
    page_length: u32,
    page_count: u32,
    image: &mut [u8],
    path: &[u8],
    bytes: &[u8],
    owners: &mut [u8],
) -> Answer {
    let outcome = judge_arguments(page_length, page_count, image, owners).and_then(|geometry| {
        let tree = judge_image(&geometry, image, owners)?;
        edit::put(&geometry, image, &tree, path, bytes)?;
        tell_owners(&geometry, image, owners);
        Ok(())
    });
    done_or_refusal(outcome)
}

/// Deletes a file.
pub fn delete(
    page_length: u32,
    page_count: u32,
    image: &mut [u8],
    path: &[u8],
    owners: &mut [u8],
) -> Answer {
    let outcome = judge_arguments(page_length, page_count, image, owners).and_then(|geometry| {
        let tree = judge_image(&geometry, image, owners)?;
        edit::delete(&geometry, image, &tree, path)?;
        tell_owners(&geometry, image, owners);
        Ok(())
    });
    done_or_refusal(outcome)
}

/// Makes a directory without entries.
pub fn make_directory(
    page_length: u32,
    page_count: u32,
    image: &mut [u8],
    path: &[u8],
    owners: &mut [u8],
) -> Answer {
    let outcome = judge_arguments(page_length, page_count, image, owners).and_then(|geometry| {
        let tree = judge_image(&geometry, image, owners)?;
        directory::make(&geometry, image, &tree, path)?;
        tell_owners(&geometry, image, owners);
        Ok(())
    });
    done_or_refusal(outcome)
}

/// Removes a directory that has no entries.
pub fn remove_directory(
    page_length: u32,
    page_count: u32,
    image: &mut [u8],
    path: &[u8],
    owners: &mut [u8],
) -> Answer {
    let outcome = judge_arguments(page_length, page_count, image, owners).and_then(|geometry| {
        let tree = judge_image(&geometry, image, owners)?;
        directory::remove(&geometry, image, &tree, path)?;
        tell_owners(&geometry, image, owners);
        Ok(())
    });
    done_or_refusal(outcome)
}

/// Makes or replaces a file by at most `allowed` page writes, and tells those made and whether any are left.
pub fn careful_put(
    page_length: u32,
    page_count: u32,
    image: &mut [u8],
    path: &[u8],
    bytes: &[u8],
    owners: &mut [u8],
    allowed: u32,
) -> Writes {
    let outcome = judge_arguments(page_length, page_count, image, owners).and_then(|geometry| {
        let tree = judge_image(&geometry, image, owners)?;
        let list = careful::put(&geometry, image, &tree, path, bytes)?;
        Ok(make_writes(&geometry, &list, image, owners, allowed))
    });
    outcome.unwrap_or_else(Writes::from)
}

/// Deletes a file by at most `allowed` page writes, and tells those made and whether any are left.
pub fn careful_delete(
    page_length: u32,
    page_count: u32,
    image: &mut [u8],
    path: &[u8],
    owners: &mut [u8],
    allowed: u32,
) -> Writes {
    let outcome = judge_arguments(page_length, page_count, image, owners).and_then(|geometry| {
        let tree = judge_image(&geometry, image, owners)?;
        let list = careful::delete(&geometry, image, &tree, path)?;
        Ok(make_writes(&geometry, &list, image, owners, allowed))
    });
    outcome.unwrap_or_else(Writes::from)
}

/// Clears the marks of pages that no chain has, and tells their number.
pub fn mend(page_length: u32, page_count: u32, image: &mut [u8], owners: &mut [u8]) -> Mended {
    let outcome = judge_arguments(page_length, page_count, image, owners).and_then(|geometry| {
        let cleared = mend::mend(&geometry, image);
        tell_owners(&geometry, image, owners);
        cleared
    });
    match outcome {
        Ok(cleared) => Mended {
            number: 0,
            page: 0,
            cleared: cleared as u32,
        },
        Err(answer) => answer.into(),
    }
}

/// Builds in `copy`, of the same length, a gathered copy of an image. Another length is 1, first of all; then come the check's answers for the image.
/// A refusal leaves the copy alone. The owner table tells of the copy when done, else of the image.
pub fn gather(
    page_length: u32,
    page_count: u32,
    image: &[u8],
    copy: &mut [u8],
    owners: &mut [u8],
) -> Answer {
    if copy.len() != image.len() {
        return Fault::Arguments.at(0);
    }
    let outcome = judge_arguments(page_length, page_count, image, owners).and_then(|geometry| {
        let tree = judge_image(&geometry, image, owners)?;
        copy.copy_from_slice(&gather::gather(&geometry, image, &tree)?);
        tell_owners(&geometry, copy, owners);
        Ok(())
    });
    done_or_refusal(outcome)
}

/// Makes the writes that are allowed; the owner table tells of the image as it then stands, all 0 if it is not accepted.
fn make_writes(
    geometry: &Geometry,
    list: &WriteList,
    image: &mut [u8],
    owners: &mut [u8],
    allowed: u32,
) -> Writes {
    let (made, left) = list.make(image, allowed);
    tell_owners(geometry, image, owners);
    Writes {
        number: 0,
        page: 0,
        made,
        left: u32::from(left),
    }
}

/// What the program `list` prints for a dump.
pub fn list_text(dump: &[u8]) -> Vec<u8> {
    list_text::list_text(dump)
}

/// Refusal 1: P, N, the image's length, or an owner table of less than N records.
fn judge_arguments(
    page_length: u32,
    page_count: u32,
    image: &[u8],
    owners: &[u8],
) -> Result<Geometry, Answer> {
    let wrong = Fault::Arguments.at(0);
    let geometry = Geometry::new(page_length, page_count).ok_or(wrong)?;
    let needed = owners::table_length(geometry.page_count());
    if image.len() != geometry.image_length() || owners.len() < needed {
        return Err(wrong);
    }
    Ok(geometry)
}

/// Checks the image and writes its owner records to the table; all 0 if it is not accepted.
fn judge_image(geometry: &Geometry, image: &[u8], owners: &mut [u8]) -> Result<Tree, Answer> {
    let judged = check::check_image(geometry, image);
    match &judged {
        Ok(tree) => owners::write(tree, owners),
        Err(_) => owners::clear(geometry.page_count(), owners),
    }
    judged
}

/// Writes the owner records of the image as it now stands.
fn tell_owners(geometry: &Geometry, image: &[u8], owners: &mut [u8]) {
    // The table is all that is wanted here; the call's answer is made already.
    let _ = judge_image(geometry, image, owners);
}

/// What listing tells of an entry.
fn listing(level: u32, entry: &Entry) -> Listing {
    let fields = &entry.fields;
    Listing {
        number: 0,
        page: 0,
        level,
        name: u32::from_le_bytes(fields.name),
        extension: u32::from(fields.extension_number()),
        attribute: u32::from(fields.attribute()),
        start: fields.start as u32,
        pages: fields.pages as u32,
        length: entry.length() as u32,
    }
}

/// The answer of a call that tells number and page only.
fn done_or_refusal(outcome: Result<(), Answer>) -> Answer {
    match outcome {
        Ok(()) => Answer::default(),
        Err(answer) => answer,
    }
}
