//! Entries of directories, one by one and in walk order.

use std::iter::FusedIterator;

use crate::calls::{list, Geometry};
use crate::path::{directory_path_of, path_of, Name};
use crate::raw;
use crate::refusal::{Reason, Refusal};

/// The extension number of a directory.
const DIRECTORY: u8 = 127;

/// What an entry is of.
#[derive(Clone, Copy, Debug, PartialEq, Eq, Hash)]
pub enum Kind {
    /// A file.
    File,
    /// A directory.
    Directory,
}

/// An entry of a directory, as [`list`] tells it.
#[derive(Clone, Copy, Debug, PartialEq, Eq, Hash)]
pub struct Entry {
    /// The level of the directory that holds the entry, 0 for the root.
    pub level: u32,
    /// The name.
    pub name: Name,
    /// The extension number: 0 to 99 for a file, 127 for a directory.
    pub extension: u8,
    /// Whether the file is read-only or the directory is hidden.
    pub attribute: bool,
    /// The start page.
    pub start: u32,
    /// The pages of a file, 0 for a directory.
    pub pages: u32,
    /// The bytes of a file, 0 for a directory.
    pub length: u32,
}

impl Entry {
    /// The entry of an answer that is no refusal.
    pub(crate) fn told(told: raw::Entry) -> Entry {
        Entry {
            level: told.level,
            name: Name::told(told.name),
            // An extension number is below 128.
            extension: told.extension as u8,
            attribute: told.attribute != 0,
            start: told.start,
            pages: told.pages,
            length: told.length,
        }
    }

    /// Whether the entry is a file's or a directory's.
    pub fn kind(&self) -> Kind {
        match self.extension {
            DIRECTORY => Kind::Directory,
            _ => Kind::File,
        }
    }

    /// Whether the entry is a read-only file's, which is neither replaced nor deleted.
    pub fn is_read_only(&self) -> bool {
        self.attribute && self.kind() == Kind::File
    }

    /// Whether the entry is a hidden directory's: it is not removed; below it files are listed and read, and neither put nor deleted, and no directory
    /// is made or removed.
    pub fn is_hidden(&self) -> bool {
        self.attribute && self.kind() == Kind::Directory
    }
}

/// An entry met in walk order, with the names that lead to it.
#[derive(Clone, Debug, PartialEq, Eq, Hash)]
pub struct Listed {
    /// The names of the directories above the entry, the highest first.
    pub directories: Vec<Name>,
    /// The entry.
    pub entry: Entry,
}

impl Listed {
    /// The path of a file, as [`crate::read`], [`crate::put`] and [`crate::delete`] take it; none for a directory.
    pub fn path(&self) -> Option<Vec<u8>> {
        path_of(&self.directories, self.entry.name, self.entry.extension).ok()
    }

    /// The path of a directory, as [`crate::make_directory`] and [`crate::remove_directory`] take it; none for a file.
    pub fn directory_path(&self) -> Option<Vec<u8>> {
        let names = [self.directories.as_slice(), &[self.entry.name]].concat();
        match self.entry.kind() {
            Kind::Directory => directory_path_of(&names).ok(),
            Kind::File => None,
        }
    }
}

/// The entries of an image in walk order; [`entries`] makes it.
pub struct Entries<'a> {
    geometry: Geometry,
    image: &'a [u8],
    owners: &'a mut [u8],
    /// The position of the next entry; none after the last.
    position: Option<u32>,
    /// The names of the directories above the next entry, and perhaps of some below them.
    directories: Vec<Name>,
}

/// All entries of an image in walk order: a directory's entries in chain order, and right after a subdirectory's entry all entries below it.
///
/// Each step is a call of [`list`], which checks the image again, so that the time of all steps grows with the square of an image's size.
/// If a call is refused, the iterator tells the refusal and ends. The buffers are as after [`list`]: the image is not written, and the owner
/// table, which is the image's after each entry, is left so at the end too.
///
/// ```
/// use owfs::{entries, owner_table, path, put, Bitmap, Geometry, Kind};
///
/// let geometry = Geometry::new(32, 16);
/// let mut image = vec![0; 32 * 16];
/// let mut owners = owner_table(16);
/// owfs::format(geometry, &mut image, &mut owners, Bitmap::Local)?;
/// put(geometry, &mut image, &path(&[], "A", 1)?, b"first", &mut owners)?;
/// put(geometry, &mut image, &path(&[], "B", 2)?, b"second", &mut owners)?;
///
/// let mut other_owners = owner_table(16);
/// for listed in entries(geometry, &image, &mut owners) {
///     let listed = listed?;
///     assert_eq!(listed.entry.kind(), Kind::File);
///     if let Some(path) = listed.path() {
///         let bytes = owfs::read_to_vec(geometry, &image, &path, &mut other_owners)?;
///         println!("{}.{:03}: {bytes:?}", listed.entry.name, listed.entry.extension);
///     }
/// }
/// # Ok::<(), Box<dyn std::error::Error>>(())
/// ```
pub fn entries<'a>(geometry: Geometry, image: &'a [u8], owners: &'a mut [u8]) -> Entries<'a> {
    Entries {
        geometry,
        image,
        owners,
        position: Some(0),
        directories: Vec::new(),
    }
}

impl Entries<'_> {
    /// The entry with the names that lead to it; a directory's is kept for the entries below it.
    fn listed(&mut self, entry: Entry) -> Listed {
        self.directories.truncate(entry.level as usize);
        let listed = Listed {
            directories: self.directories.clone(),
            entry,
        };
        if entry.kind() == Kind::Directory {
            self.directories.push(entry.name);
        }
        listed
    }
}

impl Iterator for Entries<'_> {
    type Item = Result<Listed, Refusal>;

    fn next(&mut self) -> Option<Self::Item> {
        let position = self.position.take()?;
        match list(self.geometry, self.image, self.owners, position) {
            Ok(entry) => {
                self.position = position.checked_add(1);
                Some(Ok(self.listed(entry)))
            }
            Err(refusal) if refusal.reason() == Reason::Absent => None,
            Err(refusal) => Some(Err(refusal)),
        }
    }
}

impl FusedIterator for Entries<'_> {}
