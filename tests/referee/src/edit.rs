//! Format, put, delete and read (document 01, "Edits").

use crate::answer::{Answer, Fault};
use crate::bitmap;
use crate::control::{self, BitmapPlace};
use crate::entry::Fields;
use crate::geometry::Geometry;
use crate::names::Name;
use crate::packet::{self, Written};
use crate::path::{self, Path};
use crate::tree::{Content, Directory, Entry, Target, Tree};

/// Writes page 0 and, if asked, the bitmap file from page 1 upward; a local bitmap with N above 32 is 4.
pub(crate) fn format(geometry: &Geometry, image: &mut [u8], local: bool) -> Result<(), Answer> {
    if local && !geometry.allows_local_bitmap() {
        return Err(Fault::Control.at(0));
    }
    let pages = if local {
        0
    } else {
        geometry.bitmap_file_length().div_ceil(geometry.max_data())
    };
    let mut used = vec![false; geometry.page_count()];
    used[..=pages].fill(true);
    let place = if local {
        BitmapPlace::Local(bitmap::local_bytes_of(&used))
    } else {
        BitmapPlace::File { start: 1, pages }
    };
    let field = control::root_field(geometry, place);
    packet::write(geometry, image, 0, &field, 0);
    let chain: Vec<usize> = (1..=pages).collect();
    write_chain(geometry, image, &chain, &bitmap::bytes_of(&used));
    Ok(())
}

/// Copies a file to the front of `out` and tells its length: path (14), place (15), output too short (18).
pub(crate) fn read(
    geometry: &Geometry,
    image: &[u8],
    tree: &Tree,
    path: &[u8],
    out: &mut [u8],
) -> Result<usize, Answer> {
    let path = parse(path)?;
    let entry = existing_file(&find_target(tree, &path)?, &path)?;
    let Content::File { pages, length } = &entry.content else {
        return Err(Fault::Absent.at(0));
    };
    if out.len() < *length {
        return Err(Fault::Output.at(0));
    }
    let mut filled = 0;
    for &page in pages {
        let body = packet::read(geometry, image, page)?.body;
        out[filled..filled + body.len()].copy_from_slice(body);
        filled += body.len();
    }
    Ok(*length)
}

/// Makes or replaces a file: path (14), missing directory (15), hidden directory (22), read-only (16), no room (17).
pub(crate) fn put(
    geometry: &Geometry,
    image: &mut [u8],
    tree: &Tree,
    path: &[u8],
    bytes: &[u8],
) -> Result<(), Answer> {
    let path = parse(path)?;
    let target = find_target(tree, &path)?;
    refuse_hidden(&target)?;
    let directory = target.directory;
    match directory.find(&path.name, path.extension) {
        Some(entry) if entry.fields.attribute() => Err(Fault::ReadOnly.at(0)),
        Some(entry) => replace(geometry, image, tree, entry, bytes),
        None => add(geometry, image, tree, directory, &path, bytes),
    }
}

/// Removes a file's entry and frees its pages: path (14), place (15), hidden directory (22), read-only (16).
pub(crate) fn delete(
    geometry: &Geometry,
    image: &mut [u8],
    tree: &Tree,
    path: &[u8],
) -> Result<(), Answer> {
    let path = parse(path)?;
    let target = find_target(tree, &path)?;
    let entry = existing_file(&target, &path)?;
    refuse_hidden(&target)?;
    if entry.fields.attribute() {
        return Err(Fault::ReadOnly.at(0));
    }
    let mut used = tree.used.clone();
    free_chain(&mut used, entry);
    without_entry(geometry, image, entry)?.write(geometry, image);
    bitmap::write(geometry, image, &tree.bitmap, &used)
}

/// The path's parts; a malformed path is 14.
pub(crate) fn parse(path: &[u8]) -> Result<Path, Answer> {
    path::parse(path).ok_or(Fault::Path.at(0))
}

/// The directory that the path's directory names lead to; a missing one is 15.
pub(crate) fn find_target<'a>(tree: &'a Tree, path: &Path) -> Result<Target<'a>, Answer> {
    find_directory(tree, &path.directories)
}

/// The directory that names lead to from the root; a missing one is 15.
pub(crate) fn find_directory<'a>(tree: &'a Tree, names: &[Name]) -> Result<Target<'a>, Answer> {
    tree.root.resolve(names).ok_or(Fault::Absent.at(0))
}

/// A hidden directory on the path is 22 (A6).
pub(crate) fn refuse_hidden(target: &Target) -> Result<(), Answer> {
    match target.hidden {
        true => Err(Fault::Hidden.at(0)),
        false => Ok(()),
    }
}

/// The path's file in its directory; a missing one is 15.
pub(crate) fn existing_file<'a>(target: &Target<'a>, path: &Path) -> Result<&'a Entry, Answer> {
    target
        .directory
        .find(&path.name, path.extension)
        .ok_or(Fault::Absent.at(0))
}

/// Replaces a file: its old chain counts as free, its entry stays in place.
fn replace(
    geometry: &Geometry,
    image: &mut [u8],
    tree: &Tree,
    entry: &Entry,
    bytes: &[u8],
) -> Result<(), Answer> {
    let mut used = tree.used.clone();
    free_chain(&mut used, entry);
    let pages = take_lowest(&mut used, pages_needed(geometry, bytes))?;
    write_chain(geometry, image, &pages, bytes);
    with_pages(geometry, image, entry, &pages)?.write(geometry, image);
    bitmap::write(geometry, image, &tree.bitmap, &used)
}

/// Makes a file: its entry goes to the end of the first directory page with space, in chain order;
/// if there is none, the lowest free page joins the directory's end. The file then takes the lowest free pages.
fn add(
    geometry: &Geometry,
    image: &mut [u8],
    tree: &Tree,
    directory: &Directory,
    path: &Path,
    bytes: &[u8],
) -> Result<(), Answer> {
    let mut used = tree.used.clone();
    let with_space = page_with_space(geometry, image, directory)?;
    let entry_page = match with_space {
        Some(page) => page,
        None => take_lowest(&mut used, 1)?[0],
    };
    let pages = take_lowest(&mut used, pages_needed(geometry, bytes))?;
    write_chain(geometry, image, &pages, bytes);
    if with_space.is_none() {
        append_directory_page(geometry, image, directory, entry_page)?;
    }
    let fields = new_fields(path, &pages);
    with_entry(geometry, image, entry_page, &fields)?.write(geometry, image);
    bitmap::write(geometry, image, &tree.bitmap, &used)
}

/// The first page of the directory's chain whose packet has space for one entry more.
pub(crate) fn page_with_space(
    geometry: &Geometry,
    image: &[u8],
    directory: &Directory,
) -> Result<Option<usize>, Answer> {
    for &page in &directory.pages {
        let body = packet::read(geometry, image, page)?.body;
        if body.len() + geometry.entry_length() <= geometry.max_data() {
            return Ok(Some(page));
        }
    }
    Ok(None)
}

/// Joins a new page with an empty packet to the end of the directory's chain.
pub(crate) fn append_directory_page(
    geometry: &Geometry,
    image: &mut [u8],
    directory: &Directory,
    new_page: usize,
) -> Result<(), Answer> {
    packet::write(geometry, image, new_page, &[], 0);
    if let Some(&last) = directory.pages.last() {
        let old = packet::copy(geometry, image, last)?;
        packet::write(geometry, image, last, &old.body, new_page);
    }
    Ok(())
}

/// The pages of a file of these bytes: all packets full but the last; an empty file takes one page.
pub(crate) fn pages_needed(geometry: &Geometry, bytes: &[u8]) -> usize {
    bytes.len().div_ceil(geometry.max_data()).max(1)
}

/// Takes the lowest free pages, rising, and marks them as used; too few are 17.
pub(crate) fn take_lowest(used: &mut [bool], count: usize) -> Result<Vec<usize>, Answer> {
    let free = (0..used.len()).filter(|&page| !used[page]);
    let pages: Vec<usize> = free.take(count).collect();
    if pages.len() < count {
        return Err(Fault::Room.at(0));
    }
    for &page in &pages {
        used[page] = true;
    }
    Ok(pages)
}

/// Marks the pages of the chain that an entry leads to as free.
pub(crate) fn free_chain(used: &mut [bool], entry: &Entry) {
    for &page in entry.pages() {
        used[page] = false;
    }
}

/// The packets of a file of these bytes over a chain of pages, all full but the last.
pub(crate) fn file_packets(geometry: &Geometry, pages: &[usize], bytes: &[u8]) -> Vec<Written> {
    let mut rest = bytes;
    let mut packets = Vec::new();
    for (place, &page) in pages.iter().enumerate() {
        let (body, after) = rest.split_at(rest.len().min(geometry.max_data()));
        packets.push(Written {
            page,
            body: body.to_vec(),
            pointer: pages.get(place + 1).copied().unwrap_or(0),
        });
        rest = after;
    }
    packets
}

/// Writes bytes over a chain of pages.
fn write_chain(geometry: &Geometry, image: &mut [u8], pages: &[usize], bytes: &[u8]) {
    for written in file_packets(geometry, pages, bytes) {
        written.write(geometry, image);
    }
}

/// The fields of a new file's entry.
pub(crate) fn new_fields(path: &Path, pages: &[usize]) -> Fields {
    Fields {
        name: path.name,
        extension: path.extension,
        start: pages[0],
        pages: pages.len(),
    }
}

/// The packet of a directory page with an entry more at its end. It has no stamps, since no accepted page ends in one.
pub(crate) fn with_entry(
    geometry: &Geometry,
    image: &[u8],
    page: usize,
    fields: &Fields,
) -> Result<Written, Answer> {
    let mut written = packet::copy(geometry, image, page)?;
    written.body.extend(fields.to_bytes(geometry));
    Ok(written)
}

/// The packet of an entry's page with other pages in the entry; its stamps stay.
pub(crate) fn with_pages(
    geometry: &Geometry,
    image: &[u8],
    entry: &Entry,
    pages: &[usize],
) -> Result<Written, Answer> {
    let fields = Fields {
        start: pages[0],
        pages: pages.len(),
        ..entry.fields
    };
    let mut written = packet::copy(geometry, image, entry.page)?;
    written.body[entry.offset..entry.offset + geometry.entry_length()]
        .copy_from_slice(&fields.to_bytes(geometry));
    Ok(written)
}

/// The packet of an entry's page without the entry and its stamps; later entries move up.
pub(crate) fn without_entry(
    geometry: &Geometry,
    image: &[u8],
    entry: &Entry,
) -> Result<Written, Answer> {
    let mut written = packet::copy(geometry, image, entry.page)?;
    let length = geometry.entry_length();
    let range = entry.offset - entry.stamps * length..entry.offset + length;
    written.body.drain(range);
    Ok(written)
}
