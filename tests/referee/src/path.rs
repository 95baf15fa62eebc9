//! Paths of files (document 01, "Edits") and of directories (document 02, A1).

use crate::entry::LAST_FILE_EXTENSION;
use crate::names::{is_name, Name};

/// A path has at most eight directory names.
const MOST_DIRECTORIES: usize = 8;

/// A well-formed path: the directories' names, then the file's name and extension number.
#[derive(Debug)]
pub(crate) struct Path {
    pub(crate) directories: Vec<Name>,
    pub(crate) name: Name,
    pub(crate) extension: u8,
}

/// A well-formed path of a directory: the names of the directories that lead to its parent (none for the root), then its own name.
#[derive(Debug)]
pub(crate) struct DirectoryPath {
    pub(crate) parents: Vec<Name>,
    pub(crate) name: Name,
}

/// None to eight four-byte names, then a four-byte name and one byte 0 to 99; all else is malformed.
pub(crate) fn parse(bytes: &[u8]) -> Option<Path> {
    let (&extension, names) = bytes.split_last()?;
    let mut directories = parse_names(names, MOST_DIRECTORIES + 1)?;
    if extension > LAST_FILE_EXTENSION {
        return None;
    }
    let name = directories.pop()?;
    Some(Path {
        directories,
        name,
        extension,
    })
}

/// One to eight four-byte names; all else is malformed.
pub(crate) fn parse_directory(bytes: &[u8]) -> Option<DirectoryPath> {
    let mut parents = parse_names(bytes, MOST_DIRECTORIES)?;
    let name = parents.pop()?;
    Some(DirectoryPath { parents, name })
}

/// Whole four-byte names, at most so many; none if the bytes are anything else.
fn parse_names(bytes: &[u8], most: usize) -> Option<Vec<Name>> {
    if !bytes.len().is_multiple_of(4) || bytes.len() > 4 * most {
        return None;
    }
    let names: Vec<Name> = bytes
        .chunks_exact(4)
        .map(|name| [name[0], name[1], name[2], name[3]])
        .collect();
    names.iter().all(is_name).then_some(names)
}
