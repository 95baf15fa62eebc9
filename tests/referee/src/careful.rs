//! Careful put and careful delete, by whole-page writes in a fixed order (document 02, A4).
//!
//! The order: bitmap pages that mark the new pages; the file's pages; a new directory page holding its entry; the one directory page that makes the
//! change visible; bitmap pages that release the old. A page whose packet would not change is not written, whatever page it is.

use crate::answer::{Answer, Fault};
use crate::bitmap;
use crate::edit;
use crate::entry::Fields;
use crate::geometry::Geometry;
use crate::packet::{self, Written};
use crate::path::Path;
use crate::tree::{Bitmap, Directory, Entry, Tree};

/// The page writes of a careful call, in order, each of a packet that changes what stood in its page before it.
pub(crate) struct WriteList<'a> {
    geometry: &'a Geometry,
    bitmap: &'a Bitmap,
    /// The image as all writes so far leave it.
    image: Vec<u8>,
    writes: Vec<Written>,
}

/// Where a new file's entry goes: to a page of its directory with space, or to a page that joins the directory's end.
enum EntryPlace {
    Space(usize),
    NewPage(usize),
}

/// The writes of a careful put: path (14), missing directory (15), hidden directory (22), read-only (16), no room besides the old chain (17).
pub(crate) fn put<'a>(
    geometry: &'a Geometry,
    image: &[u8],
    tree: &'a Tree,
    path: &[u8],
    bytes: &[u8],
) -> Result<WriteList<'a>, Answer> {
    let path = edit::parse(path)?;
    let target = edit::find_target(tree, &path)?;
    edit::refuse_hidden(&target)?;
    let directory = target.directory;
    let list = WriteList::new(geometry, image, tree);
    match directory.find(&path.name, path.extension) {
        Some(entry) if entry.fields.attribute() => Err(Fault::ReadOnly.at(0)),
        Some(entry) => replace(list, tree, entry, bytes),
        None => add(list, tree, directory, &path, bytes),
    }
}

/// The writes of a careful delete: path (14), place (15), hidden directory (22), read-only (16).
pub(crate) fn delete<'a>(
    geometry: &'a Geometry,
    image: &[u8],
    tree: &'a Tree,
    path: &[u8],
) -> Result<WriteList<'a>, Answer> {
    let path = edit::parse(path)?;
    let target = edit::find_target(tree, &path)?;
    let entry = edit::existing_file(&target, &path)?;
    edit::refuse_hidden(&target)?;
    if entry.fields.attribute() {
        return Err(Fault::ReadOnly.at(0));
    }
    let mut list = WriteList::new(geometry, image, tree);
    let visible = edit::without_entry(geometry, &list.image, entry)?;
    list.add(visible);
    let mut used = tree.used.clone();
    edit::free_chain(&mut used, entry);
    list.add_bitmap(&used)?;
    Ok(list)
}

/// The writes that replace a file. The new chain has no page of the old one, which is released last.
fn replace<'a>(
    mut list: WriteList<'a>,
    tree: &Tree,
    entry: &Entry,
    bytes: &[u8],
) -> Result<WriteList<'a>, Answer> {
    let mut used = tree.used.clone();
    let pages = edit::take_lowest(&mut used, edit::pages_needed(list.geometry, bytes))?;
    list.add_bitmap(&used)?;
    list.add_file(&pages, bytes);
    let visible = edit::with_pages(list.geometry, &list.image, entry, &pages)?;
    list.add(visible);
    edit::free_chain(&mut used, entry);
    list.add_bitmap(&used)?;
    Ok(list)
}

/// The writes that make a file. Pages are chosen as for a put, the page that joins the directory first.
fn add<'a>(
    mut list: WriteList<'a>,
    tree: &Tree,
    directory: &Directory,
    path: &Path,
    bytes: &[u8],
) -> Result<WriteList<'a>, Answer> {
    let mut used = tree.used.clone();
    let place = match edit::page_with_space(list.geometry, &list.image, directory)? {
        Some(page) => EntryPlace::Space(page),
        None => EntryPlace::NewPage(edit::take_lowest(&mut used, 1)?[0]),
    };
    let pages = edit::take_lowest(&mut used, edit::pages_needed(list.geometry, bytes))?;
    list.add_bitmap(&used)?;
    list.add_file(&pages, bytes);
    list.add_entry(directory, place, edit::new_fields(path, &pages))?;
    Ok(list)
}

impl<'a> WriteList<'a> {
    /// No writes yet.
    fn new(geometry: &'a Geometry, image: &[u8], tree: &'a Tree) -> WriteList<'a> {
        WriteList {
            geometry,
            bitmap: &tree.bitmap,
            image: image.to_vec(),
            writes: Vec::new(),
        }
    }

    /// Adds a page write, unless its packet stands there already.
    fn add(&mut self, written: Written) {
        if !written.stands_in(self.geometry, &self.image) {
            written.write(self.geometry, &mut self.image);
            self.writes.push(written);
        }
    }

    /// Adds the bitmap pages that mark these pages, in chain order.
    fn add_bitmap(&mut self, used: &[bool]) -> Result<(), Answer> {
        let packets = bitmap::packets(self.geometry, &self.image, self.bitmap, used)?;
        for written in packets {
            self.add(written);
        }
        Ok(())
    }

    /// Adds a file's pages, rising.
    fn add_file(&mut self, pages: &[usize], bytes: &[u8]) {
        for written in edit::file_packets(self.geometry, pages, bytes) {
            self.add(written);
        }
    }

    /// Adds a new directory page that holds the entry, if there is one, and the page that makes the entry visible.
    fn add_entry(
        &mut self,
        directory: &Directory,
        place: EntryPlace,
        fields: Fields,
    ) -> Result<(), Answer> {
        match place {
            EntryPlace::Space(page) => {
                let visible = edit::with_entry(self.geometry, &self.image, page, &fields)?;
                self.add(visible);
            }
            EntryPlace::NewPage(page) => {
                self.add(Written {
                    page,
                    body: fields.to_bytes(self.geometry),
                    pointer: 0,
                });
                let last = directory.pages.last().copied().unwrap_or(0);
                let old = packet::copy(self.geometry, &self.image, last)?;
                self.add(Written {
                    pointer: page,
                    ..old
                });
            }
        }
        Ok(())
    }

    /// Makes the first `allowed` writes; tells how many these were, and whether any are left.
    pub(crate) fn make(&self, image: &mut [u8], allowed: u32) -> (u32, bool) {
        let allowed = usize::try_from(allowed).unwrap_or(usize::MAX);
        let made = self.writes.len().min(allowed);
        for written in &self.writes[..made] {
            written.write(self.geometry, image);
        }
        (made as u32, made < self.writes.len())
    }
}
