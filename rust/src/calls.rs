//! The calls.

use crate::entry::Entry;
use crate::raw;
use crate::refusal::Refusal;

/// The page length and page count of a button. Any numbers may stand here; those that no button has are refused with 1 by every call.
#[derive(Clone, Copy, Debug, PartialEq, Eq, Hash)]
pub struct Geometry {
    /// The bytes of a page, 32 to 256.
    pub page_length: u32,
    /// The number of pages, 2 to 65,535.
    pub page_count: u32,
}

impl Geometry {
    /// The geometry of so many pages of this length.
    pub const fn new(page_length: u32, page_count: u32) -> Geometry {
        Geometry {
            page_length,
            page_count,
        }
    }
}

/// Where a formatted image has its bitmap.
#[derive(Clone, Copy, Debug, PartialEq, Eq, Hash)]
pub enum Bitmap {
    /// In page 0, for images of up to 32 pages; more pages need a file.
    Local,
    /// In a file from page 1 upward.
    File,
}

/// What a check of an accepted image tells.
#[derive(Clone, Copy, Debug, PartialEq, Eq, Hash)]
pub struct Totals {
    /// Pages in use.
    pub used: u32,
    /// Files; the bitmap file is not counted.
    pub files: u32,
    /// Directories; the root is not counted.
    pub directories: u32,
}

/// What a careful put or delete has written.
#[derive(Clone, Copy, Debug, PartialEq, Eq, Hash)]
pub struct Writes {
    /// The page writes made, at most those allowed.
    pub made: u32,
    /// Whether writes are left.
    pub left: bool,
}

/// Nothing for number 0, else the refusal.
pub(crate) fn done(number: u32, page: u32) -> Result<(), Refusal> {
    match number {
        0 => Ok(()),
        _ => Err(Refusal { number, page }),
    }
}

/// The CRC-16 register (x^16 + x^15 + x^2 + 1, least significant bit first) after the bytes, started with `start`, not inverted.
///
/// A packet's check is this sum over length byte and data, started with the page number, inverted, stored low byte first:
///
/// ```
/// let packet = [0x05, 0x54, 0x65, 0x73, 0x74, 0x00];
/// let check = !owfs::crc16(1, &packet);
/// assert_eq!(check.to_le_bytes(), [0x07, 0xA0]);
/// ```
pub fn crc16(start: u16, bytes: &[u8]) -> u16 {
    raw::crc16(start, bytes)
}

/// Checks an image and tells its totals. The image is not written.
///
/// The owner table has a record of four bytes for each page: two for its owner, two for its place in the owner's chain from 0, each low byte first.
/// Afterwards the owner is 0 if the page is free, 1 in the root, 2 in the bitmap file, 3 + k in the entry at position k in walk order; a free page
/// has the place 0 ([`crate::owner_of`] reads both). After the refusals 2 to 13 all records are 0; after 1 no byte is changed. Bytes past the first
/// four for each page never change.
///
/// Extended entries, whose first byte is above 127, are stamps of the entry after them in their page. They are accepted; nothing lists or counts
/// them.
///
/// # Errors
///
/// 1 if page length, page count or image length is wrong or the owner table is too short; 2 to 13 for the first fault of the image, with its page.
pub fn check(geometry: Geometry, image: &[u8], owners: &mut [u8]) -> Result<Totals, Refusal> {
    let told = raw::check(geometry.page_length, geometry.page_count, image, owners);
    done(told.number, told.page)?;
    Ok(Totals {
        used: told.used,
        files: told.files,
        directories: told.directories,
    })
}

/// Checks an image and tells the entry at a position in walk order, from 0. The image is not written.
///
/// Walk order: a directory's entries in chain order, and right after a subdirectory's entry all entries below it. Stamps have no position.
/// The owner table is left as [`check`] leaves it, after 15 too.
///
/// # Errors
///
/// 1 to 13 as for [`check`]; 15 if the position is at or past the end.
pub fn list(
    geometry: Geometry,
    image: &[u8],
    owners: &mut [u8],
    position: u32,
) -> Result<Entry, Refusal> {
    let told = raw::list(
        geometry.page_length,
        geometry.page_count,
        image,
        owners,
        position,
    );
    done(told.number, told.page)?;
    Ok(Entry::told(told))
}

/// Checks an image, copies a file to the front of `out` and tells its length. The image is not written.
///
/// [`crate::path`] makes a path. Read-only files and files below hidden directories are read like others. The rest of `out` stays; a refusal
/// changes no byte of it. The owner table is left as [`check`] leaves it, after 14, 15 and 18 too.
///
/// # Errors
///
/// 1 to 13 as for [`check`]; 14 if the path is malformed; 15 if a directory or the file is absent; 18 if `out` is shorter than the file.
pub fn read(
    geometry: Geometry,
    image: &[u8],
    path: &[u8],
    out: &mut [u8],
    owners: &mut [u8],
) -> Result<usize, Refusal> {
    let told = raw::read(
        geometry.page_length,
        geometry.page_count,
        image,
        path,
        out,
        owners,
    );
    done(told.number, told.page)?;
    Ok(told.length as usize)
}

/// Checks an image and gives the bytes of a file. The image is not written.
///
/// This is [`read`] with an output that is long enough for every file: as long as the image while the call lasts. The owner table is left as
/// [`check`] leaves it, after 14 and 15 too.
///
/// # Errors
///
/// 1 to 13 as for [`check`]; 14 if the path is malformed; 15 if a directory or the file is absent.
pub fn read_to_vec(
    geometry: Geometry,
    image: &[u8],
    path: &[u8],
    owners: &mut [u8],
) -> Result<Vec<u8>, Refusal> {
    let mut out = vec![0; image.len()];
    let length = read(geometry, image, path, &mut out, owners)?;
    out.truncate(length);
    out.shrink_to_fit();
    Ok(out)
}

/// Formats an image, which may hold any bytes before: page 0 becomes an empty root and, if asked for, a bitmap file is laid from page 1 upward.
///
/// In a page written only the bytes of its packet change; every other byte of the image stays. A refusal changes no byte of the image. The owner
/// table tells of the new image; after 4 it is left as [`check`] leaves it for the image as it stands: its records if it is accepted, all 0 if not.
/// After 1 no byte of it is changed. Bytes past the first four for each page never change.
///
/// # Errors
///
/// 1 if page length, page count or image length is wrong or the owner table is too short; 4 if a local bitmap is asked for with more than 32 pages.
pub fn format(
    geometry: Geometry,
    image: &mut [u8],
    owners: &mut [u8],
    bitmap: Bitmap,
) -> Result<(), Refusal> {
    let local = u32::from(bitmap == Bitmap::Local);
    let told = raw::format(
        geometry.page_length,
        geometry.page_count,
        image,
        owners,
        local,
    );
    done(told.number, told.page)
}

/// Checks an image and puts `bytes` as the file at a path: makes the file or replaces it, not read-only.
///
/// [`crate::path`] makes a path. A replaced file's entry stays in place with its stamps, and its old pages count as free. A new entry goes to the end
/// of the first page of its directory with space, where stamps take space as entries do; if there is none, the lowest free page joins the directory's
/// end. The file then takes the lowest free pages. In a page written only the bytes of its packet change; every other byte of the image stays. A
/// refusal changes no byte of the image. The owner table is left as [`check`] leaves it: it tells of the new image, and after 14 to 17 and 22 of the
/// image as it stands.
///
/// # Errors
///
/// 1 to 13 as for [`check`]; 14 if the path is malformed; 15 if a directory is absent; 22 if a directory on the path is hidden; 16 if the file is
/// read-only; 17 if there is no room. The first of these, in this order, is told.
pub fn put(
    geometry: Geometry,
    image: &mut [u8],
    path: &[u8],
    bytes: &[u8],
    owners: &mut [u8],
) -> Result<(), Refusal> {
    let told = raw::put(
        geometry.page_length,
        geometry.page_count,
        image,
        path,
        bytes,
        owners,
    );
    done(told.number, told.page)
}

/// Checks an image and deletes a file: its entry is removed with its stamps, later ones of the same directory page move up, and its pages are free.
///
/// [`crate::path`] makes a path. The directory keeps its pages, also one that is left without entries. In a page written only the bytes of its packet
/// change; every other byte of the image stays, those of the file's pages too. A refusal changes no byte of the image. The owner table is left as
/// [`check`] leaves it: it tells of the new image, and after 14 to 16 and 22 of the image as it stands.
///
/// # Errors
///
/// 1 to 13 as for [`check`]; 14 if the path is malformed; 15 if a directory or the file is absent; 22 if a directory on the path is hidden; 16 if the
/// file is read-only. The first of these, in this order, is told.
pub fn delete(
    geometry: Geometry,
    image: &mut [u8],
    path: &[u8],
    owners: &mut [u8],
) -> Result<(), Refusal> {
    let told = raw::delete(
        geometry.page_length,
        geometry.page_count,
        image,
        path,
        owners,
    );
    done(told.number, told.page)
}

/// Checks an image and makes a directory at a path: without entries, not hidden.
///
/// [`crate::directory_path`] makes the path of a directory. Its entry goes to the end of the first page of the directory that holds it with space,
/// where stamps take space as entries do; if there is none, the lowest free page joins that directory's end. The new directory then takes the lowest
/// free page. A file of the same name is no obstacle. In a page written only the bytes of its packet change; every other byte of the image stays. A
/// refusal changes no byte of the image. The owner table is left as [`check`] leaves it: it tells of the new image, and after 14, 15, 17, 21 and 22
/// of the image as it stands.
///
/// One directory for each boom:
///
/// ```
/// use owfs::{directory_path, make_directory, owner_table, path, put, Bitmap, Geometry, Reason};
///
/// let geometry = Geometry::new(32, 16);
/// let mut image = vec![0; 32 * 16];
/// let mut owners = owner_table(geometry.page_count);
/// owfs::format(geometry, &mut image, &mut owners, Bitmap::Local)?;
///
/// let boom = directory_path(&["BM01"])?;
/// make_directory(geometry, &mut image, &boom, &mut owners)?;
/// put(geometry, &mut image, &path(&["BM01"], "LOG", 7)?, b"12", &mut owners)?;
///
/// // It is there already.
/// let again = make_directory(geometry, &mut image, &boom, &mut owners).unwrap_err();
/// assert_eq!(again.reason(), Reason::AlreadyThere);
/// # Ok::<(), Box<dyn std::error::Error>>(())
/// ```
///
/// # Errors
///
/// 1 to 13 as for [`check`]; 14 if the path is malformed; 15 if a directory before the last name is absent; 22 if one of those is hidden; 21 if a
/// directory of that name is already there, hidden or not; 17 if there is no room. The first of these, in this order, is told.
pub fn make_directory(
    geometry: Geometry,
    image: &mut [u8],
    path: &[u8],
    owners: &mut [u8],
) -> Result<(), Refusal> {
    let told = raw::make_directory(
        geometry.page_length,
        geometry.page_count,
        image,
        path,
        owners,
    );
    done(told.number, told.page)
}

/// Checks an image and removes a directory that has no entries: its own entry is removed with its stamps, later ones of the same directory page move
/// up, and all its pages are free.
///
/// [`crate::directory_path`] makes the path of a directory. The directory that held the entry keeps its pages, also one that is left without entries.
/// In a page written only the bytes of its packet change; every other byte of the image stays, those of the removed directory's pages too. A refusal
/// changes no byte of the image. The owner table is left as [`check`] leaves it: it tells of the new image, and after 14, 15, 20 and 22 of the image
/// as it stands.
///
/// # Errors
///
/// 1 to 13 as for [`check`]; 14 if the path is malformed; 15 if a directory of the path is absent; 22 if one of them, the last too, is hidden; 20 if
/// the directory has entries. The first of these, in this order, is told.
pub fn remove_directory(
    geometry: Geometry,
    image: &mut [u8],
    path: &[u8],
    owners: &mut [u8],
) -> Result<(), Refusal> {
    let told = raw::remove_directory(
        geometry.page_length,
        geometry.page_count,
        image,
        path,
        owners,
    );
    done(told.number, told.page)
}

/// What a careful call tells.
fn writes(told: raw::Writes) -> Result<Writes, Refusal> {
    done(told.number, told.page)?;
    Ok(Writes {
        made: told.made,
        left: told.left != 0,
    })
}

/// Checks an image and puts a file as [`put`] does, by at most `allowed` whole-page writes, so that a button can be written in the same order and be
/// pulled off its probe between any two of them.
///
/// The order: the bitmap's pages that mark the new pages, in chain order (with a local bitmap page 0); the file's pages, rising; a page that joins
/// the directory, with the new entry; the one directory page that makes the change visible; the bitmap's pages that release a replaced file's pages.
/// A page whose packet would not change is not written and does not count. The file takes none of the pages of a file that it replaces.
///
/// While writes are left, [`check`] accepts the image or refuses it with 13 because pages are marked that no chain has; [`mend`] clears these marks.
/// Then every other file reads as before, and the path's as before until the page is written that makes the change visible, and as the new one from
/// it on. When nothing is left the image is accepted. The owner table is left as [`check`] leaves it for the image as it then stands: all 0 where
/// that is refused. A refusal changes no byte of the image.
///
/// Each page write of a button, in order, is the page that differs after one write more:
///
/// ```
/// use owfs::{careful_put, owner_table, path, Bitmap, Geometry};
///
/// let geometry = Geometry::new(32, 16);
/// let mut button = vec![0; 32 * 16];
/// let mut owners = owner_table(geometry.page_count);
/// owfs::format(geometry, &mut button, &mut owners, Bitmap::Local)?;
/// let demo = path(&[], "DEMO", 12)?;
///
/// let image = button.clone();
/// let mut written = Vec::new();
/// for allowed in 1.. {
///     let mut next = image.clone();
///     let writes = careful_put(geometry, &mut next, &demo, b"TEST", &mut owners, allowed)?;
///     let differs = |page: &usize| next[32 * page..32 * page + 32] != button[32 * page..32 * page + 32];
///     let page = (0..16).find(differs).unwrap();
///     button[32 * page..32 * page + 32].copy_from_slice(&next[32 * page..32 * page + 32]);
///     written.push(page);
///     if !writes.left {
///         break;
///     }
/// }
/// assert_eq!(written, [0, 1, 0]);
/// # Ok::<(), Box<dyn std::error::Error>>(())
/// ```
///
/// # Errors
///
/// 1 to 13 as for [`check`]; 14 if the path is malformed; 15 if a directory is absent; 22 if a directory on the path is hidden; 16 if the file is
/// read-only; 17 if there is no room besides the replaced file's pages. The first of these, in this order, is told.
pub fn careful_put(
    geometry: Geometry,
    image: &mut [u8],
    path: &[u8],
    bytes: &[u8],
    owners: &mut [u8],
    allowed: u32,
) -> Result<Writes, Refusal> {
    writes(raw::careful_put(
        geometry.page_length,
        geometry.page_count,
        image,
        path,
        bytes,
        owners,
        allowed,
    ))
}

/// Checks an image and deletes a file as [`delete`] does, by at most `allowed` whole-page writes: the directory page without the entry and its
/// stamps, which makes the change visible, then the bitmap's pages that release the file's pages, in chain order (with a local bitmap page 0).
///
/// What is left while writes are left is as for [`careful_put`]; the path's file is as before until the first write is made, and absent from it on.
/// A refusal changes no byte of the image.
///
/// # Errors
///
/// 1 to 13 as for [`check`]; 14 if the path is malformed; 15 if a directory or the file is absent; 22 if a directory on the path is hidden; 16 if the
/// file is read-only. The first of these, in this order, is told.
pub fn careful_delete(
    geometry: Geometry,
    image: &mut [u8],
    path: &[u8],
    owners: &mut [u8],
    allowed: u32,
) -> Result<Writes, Refusal> {
    writes(raw::careful_delete(
        geometry.page_length,
        geometry.page_count,
        image,
        path,
        owners,
        allowed,
    ))
}

/// Clears the bitmap's marks of pages that no chain has, as a careful put or delete that was stopped leaves them, and tells their number.
///
/// Only the bitmap's packets change; every other byte of the image stays. Afterwards the image is accepted, and the owner table tells of it. An image
/// that is accepted already stays as it is, with 0 marks cleared. A refusal changes no byte of the image.
///
/// # Errors
///
/// 1 to 12 as for [`check`]; 13, with the page that [`check`] tells, if a page in use is unmarked or a bit past the last page is set: such a bitmap
/// is left by no stopped careful call, and nothing is cleared.
pub fn mend(geometry: Geometry, image: &mut [u8], owners: &mut [u8]) -> Result<u32, Refusal> {
    let told = raw::mend(geometry.page_length, geometry.page_count, image, owners);
    done(told.number, told.page)?;
    Ok(told.cleared)
}

/// Checks an image and builds in `copy`, of the same length, a gathered copy of it: the same tree, entry order
/// and kind of bitmap, on as few pages as any image can have them on.
///
/// The copy has the same names, entry order, stamps, attributes, file bytes and kind of bitmap. Each directory page is filled as far as the next entry
/// fits with its stamps, all other packets are full but the last of each chain. The chains follow each other from page 1 up: the bitmap file, the
/// root's further pages, then each entry's in walk order. Unused bytes of the copy are FF, free pages wholly.
///
/// The image is not written, and a refusal changes no byte of the copy. The owner table tells of the copy; after the refusals 2 to 13 all records are 0,
/// after 1 no byte of it is changed. Bytes past the first four for each page never change.
///
/// A copy is written to a button page by page, and nearly every page may differ: if the button is pulled off its probe between two of them, files may
/// be lost, and [`check`] may still accept it. Keep image and copy until the button reads back equal to the copy.
///
/// ```
/// use owfs::{check, delete, gather, owner_table, path, put, Bitmap, Geometry};
///
/// let geometry = Geometry::new(32, 16);
/// let mut image = vec![0; 32 * 16];
/// let mut owners = owner_table(geometry.page_count);
/// owfs::format(geometry, &mut image, &mut owners, Bitmap::Local)?;
/// for name in ["A", "B", "C", "D"] {
///     put(geometry, &mut image, &path(&[], name, 1)?, b"12", &mut owners)?;
/// }
/// delete(geometry, &mut image, &path(&[], "A", 1)?, &mut owners)?;
/// assert_eq!(check(geometry, &image, &mut owners)?.used, 5);
///
/// // The three files that are left have their entries on the root's first page.
/// let mut copy = vec![0; image.len()];
/// gather(geometry, &image, &mut copy, &mut owners)?;
/// assert_eq!(check(geometry, &copy, &mut owners)?.used, 4);
/// # Ok::<(), Box<dyn std::error::Error>>(())
/// ```
///
/// # Errors
///
/// 1 if the copy has another length than the image, first of all; then 1 to 13 as for [`check`].
pub fn gather(
    geometry: Geometry,
    image: &[u8],
    copy: &mut [u8],
    owners: &mut [u8],
) -> Result<(), Refusal> {
    let told = raw::gather(
        geometry.page_length,
        geometry.page_count,
        image,
        copy,
        owners,
    );
    done(told.number, told.page)
}
