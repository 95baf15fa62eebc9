//! What an accepted image holds: its bitmap's place, its directories, entries and chains.

use crate::answer::Totals;
use crate::entry::{Fields, SUBDIRECTORY};
use crate::names::Name;

/// Where the bitmap stands: in the root's control field, or in a file with the pages of its chain.
#[derive(Debug)]
pub(crate) enum Bitmap {
    Local,
    File(Vec<usize>),
}

/// A directory: the pages of its chain and its plain entries in chain order.
#[derive(Debug)]
pub(crate) struct Directory {
    pub(crate) pages: Vec<usize>,
    pub(crate) entries: Vec<Entry>,
}

/// What an entry leads to: a file's chain with its length in bytes, or a directory.
#[derive(Debug)]
pub(crate) enum Content {
    File { pages: Vec<usize>, length: usize },
    Directory(Directory),
}

/// An entry with the directory page that holds it and its offset in that packet's body.
#[derive(Debug)]
pub(crate) struct Entry {
    pub(crate) fields: Fields,
    pub(crate) page: usize,
    pub(crate) offset: usize,
    /// The number of stamps directly before it.
    pub(crate) stamps: usize,
    pub(crate) content: Content,
}

/// The directory that a path's directory names lead to.
#[derive(Debug)]
pub(crate) struct Target<'a> {
    pub(crate) directory: &'a Directory,
    /// The entry that leads to it; none for the root.
    pub(crate) entry: Option<&'a Entry>,
    /// Whether any of the directories named, the last one too, is hidden (A6). The root has no entry and is never hidden.
    pub(crate) hidden: bool,
}

/// An accepted image: bitmap, root, and for each page whether it is in use, that is in any chain.
#[derive(Debug)]
pub(crate) struct Tree {
    pub(crate) bitmap: Bitmap,
    pub(crate) root: Directory,
    pub(crate) used: Vec<bool>,
}

impl Entry {
    /// The bytes of a file; 0 for a directory.
    pub(crate) fn length(&self) -> usize {
        match &self.content {
            Content::File { length, .. } => *length,
            Content::Directory(_) => 0,
        }
    }

    /// The pages of the chain that the entry leads to.
    pub(crate) fn pages(&self) -> &[usize] {
        match &self.content {
            Content::File { pages, .. } => pages,
            Content::Directory(directory) => &directory.pages,
        }
    }

    /// Whether the entry leads to a directory.
    fn is_directory(&self) -> bool {
        matches!(self.content, Content::Directory(_))
    }
}

impl Directory {
    /// The entry with this name and extension number, the attribute bit left out.
    pub(crate) fn find(&self, name: &Name, extension_number: u8) -> Option<&Entry> {
        self.entries.iter().find(|entry| {
            entry.fields.name == *name && entry.fields.extension_number() == extension_number
        })
    }

    /// The directory that `names` lead to from this one, name by name.
    pub(crate) fn resolve(&self, names: &[Name]) -> Option<Target<'_>> {
        let mut target = Target {
            directory: self,
            entry: None,
            hidden: false,
        };
        for name in names {
            let entry = target.directory.find(name, SUBDIRECTORY)?;
            let Content::Directory(directory) = &entry.content else {
                return None;
            };
            target = Target {
                directory,
                entry: Some(entry),
                hidden: target.hidden || entry.fields.attribute(),
            };
        }
        Some(target)
    }

    /// Adds the entries in walk order: after a subdirectory's entry all entries below it.
    fn add_walk<'a>(&'a self, level: u32, walk: &mut Vec<(u32, &'a Entry)>) {
        for entry in &self.entries {
            walk.push((level, entry));
            if let Content::Directory(directory) = &entry.content {
                directory.add_walk(level + 1, walk);
            }
        }
    }
}

impl Tree {
    /// All entries in walk order, each with its level (0 in the root).
    pub(crate) fn walk(&self) -> Vec<(u32, &Entry)> {
        let mut walk = Vec::new();
        self.root.add_walk(0, &mut walk);
        walk
    }

    /// Pages in use, files and directories; root and bitmap file are not counted as directory or file.
    pub(crate) fn totals(&self) -> Totals {
        let walk = self.walk();
        let subdirectories = walk.iter().filter(|(_, entry)| entry.is_directory());
        let directories = subdirectories.count();
        let used = self.used.iter().filter(|&&used| used).count();
        Totals {
            number: 0,
            page: 0,
            used: used as u32,
            files: (walk.len() - directories) as u32,
            directories: directories as u32,
        }
    }
}
