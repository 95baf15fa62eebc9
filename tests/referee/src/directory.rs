//! Making and removing directories (document 02, A1).

use crate::answer::{Answer, Fault};
use crate::bitmap;
use crate::control;
use crate::edit;
use crate::entry::{Fields, SUBDIRECTORY};
use crate::geometry::Geometry;
use crate::names::ROOT;
use crate::packet;
use crate::path::{self, DirectoryPath};
use crate::tree::{Content, Target, Tree};

/// Makes a directory without entries, not hidden: path (14), missing parent (15), hidden directory before the last name (22), a directory of that
/// name already there, hidden or not (21), no room (17). Its entry goes where a new file's would, the parent's extra page is chosen first, and the
/// directory takes the lowest free page then left.
pub(crate) fn make(
    geometry: &Geometry,
    image: &mut [u8],
    tree: &Tree,
    path: &[u8],
) -> Result<(), Answer> {
    let path = parse(path)?;
    let parent = edit::find_directory(tree, &path.parents)?;
    edit::refuse_hidden(&parent)?;
    if parent.directory.find(&path.name, SUBDIRECTORY).is_some() {
        return Err(Fault::AlreadyThere.at(0));
    }
    let mut used = tree.used.clone();
    let with_space = edit::page_with_space(geometry, image, parent.directory)?;
    let entry_page = match with_space {
        Some(page) => page,
        None => edit::take_lowest(&mut used, 1)?[0],
    };
    let start = edit::take_lowest(&mut used, 1)?[0];
    packet::write(geometry, image, start, &first_page(geometry, &parent), 0);
    if with_space.is_none() {
        edit::append_directory_page(geometry, image, parent.directory, entry_page)?;
    }
    let fields = Fields {
        name: path.name,
        extension: SUBDIRECTORY,
        start,
        pages: 0,
    };
    edit::with_entry(geometry, image, entry_page, &fields)?.write(geometry, image);
    bitmap::write(geometry, image, &tree.bitmap, &used)
}

/// Removes a directory that has no entries, as a file is deleted, and frees all its pages: path (14), any missing directory (15), any hidden
/// directory, the last one too (22), entries (20).
pub(crate) fn remove(
    geometry: &Geometry,
    image: &mut [u8],
    tree: &Tree,
    path: &[u8],
) -> Result<(), Answer> {
    let path = parse(path)?;
    let parent = edit::find_directory(tree, &path.parents)?;
    let found = parent.directory.find(&path.name, SUBDIRECTORY);
    let entry = found.ok_or(Fault::Absent.at(0))?;
    edit::refuse_hidden(&parent)?;
    if entry.fields.attribute() {
        return Err(Fault::Hidden.at(0));
    }
    if let Content::Directory(directory) = &entry.content {
        if !directory.entries.is_empty() {
            return Err(Fault::NotEmpty.at(0));
        }
    }
    let mut used = tree.used.clone();
    edit::free_chain(&mut used, entry);
    edit::without_entry(geometry, image, entry)?.write(geometry, image);
    bitmap::write(geometry, image, &tree.bitmap, &used)
}

/// The path's parts; a malformed path is 14.
fn parse(path: &[u8]) -> Result<DirectoryPath, Answer> {
    path::parse_directory(path).ok_or(Fault::Path.at(0))
}

/// The bytes of a new directory's first page: the control field with the back reference to its parent, and no entries.
fn first_page(geometry: &Geometry, parent: &Target) -> Vec<u8> {
    match parent.entry {
        Some(entry) => {
            control::subdirectory_field(geometry, &entry.fields.name, entry.fields.start)
        }
        None => control::subdirectory_field(geometry, &ROOT, 0),
    }
}
