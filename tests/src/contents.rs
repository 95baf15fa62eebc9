//! What an accepted image holds: each file and each directory by its path, read from the packets alone, without a call of either program.

use std::collections::BTreeMap;

use crate::Button;
use referee::builder::pages::Pages;
use referee::builder::plan::Built;

/// The extension number of a directory.
const DIRECTORY: u8 = 127;

/// What stands at a path.
#[derive(Clone, Debug, PartialEq, Eq)]
pub struct Found {
    /// The extension byte, with the attribute bit.
    pub extension: u8,
    /// The bytes of each stamp before the entry, in order.
    pub stamps: Vec<Vec<u8>>,
    /// A file's bytes; none of a directory.
    pub bytes: Vec<u8>,
}

impl Found {
    /// Whether it is a directory.
    pub fn is_directory(&self) -> bool {
        self.extension & 0x7F == DIRECTORY
    }
}

/// All files and directories by path: the names of the directories, the own name and the extension number, which is 127 for a directory.
pub type Contents = BTreeMap<Vec<u8>, Found>;

/// All files and directories of an accepted image.
pub fn contents(button: &Button) -> Contents {
    let mut found = Contents::new();
    add_directory(&button.pages(), 0, &[], &mut found);
    found
}

/// The bodies of a chain's packets.
fn bodies(pages: &Pages, start: usize) -> Vec<Vec<u8>> {
    let mut bodies = vec![pages.body(start)];
    let mut next = pages.pointer(start);
    while next != 0 {
        bodies.push(pages.body(next));
        next = pages.pointer(next);
    }
    bodies
}

/// Adds the entries of the directory that these names lead to, and all below it.
fn add_directory(pages: &Pages, start: usize, names: &[u8], found: &mut Contents) {
    for (place, body) in bodies(pages, start).iter().enumerate() {
        let control = match place {
            0 => pages.geometry.control_length(),
            _ => 0,
        };
        let mut stamps = Vec::new();
        for slot in body[control..].chunks(pages.geometry.entry_length()) {
            match slot[0] {
                0x80.. => stamps.push(slot.to_vec()),
                _ => add_entry(pages, slot, std::mem::take(&mut stamps), names, found),
            }
        }
    }
}

/// Adds an entry of the directory that these names lead to, and what is below it.
fn add_entry(pages: &Pages, slot: &[u8], stamps: Vec<Vec<u8>>, names: &[u8], found: &mut Contents) {
    let own = [names, &slot[..4]].concat();
    let start = pages.geometry.number_at(&slot[5..]);
    let mut entry = Found {
        extension: slot[4],
        stamps,
        bytes: Vec::new(),
    };
    match entry.is_directory() {
        true => add_directory(pages, start, &own, found),
        false => entry.bytes = bodies(pages, start).concat(),
    }
    let path = [&own[..], &[slot[4] & 0x7F]].concat();
    let before = found.insert(path, entry);
    assert_eq!(before, None, "one entry of a name and extension number");
}

/// Demands the files and directories that a built image has by construction.
pub fn demand_built(contents: &Contents, built: &Built) {
    assert_eq!(contents.len(), built.entries.len(), "entries built");
    for entry in &built.entries {
        let own = match entry.listing.extension {
            127 => [&entry.path[..], &[DIRECTORY]].concat(),
            _ => entry.path.clone(),
        };
        let found = contents.get(&own).expect("the entry built is there");
        let expected = Found {
            extension: (entry.listing.extension | entry.listing.attribute << 7) as u8,
            stamps: built.stamps_of(entry).map(<[u8]>::to_vec).collect(),
            bytes: entry.bytes.clone(),
        };
        assert_eq!(*found, expected, "{own:?}");
    }
}

/// Demands that list and read of both programs tell of these files and directories, and of no others.
pub fn demand_told(button: &Button, contents: &Contents) {
    let listings = button.list_all();
    assert_eq!(listings.len(), contents.len(), "entries listed");
    let mut names: Vec<u8> = Vec::new();
    for listing in listings {
        names.truncate(4 * listing.level as usize);
        names.extend(listing.name.to_le_bytes());
        let path = [&names[..], &[listing.extension as u8]].concat();
        let found = contents.get(&path).expect("the entry listed is there");
        let extension = listing.extension | listing.attribute << 7;
        assert_eq!(extension, u32::from(found.extension), "{path:?}");
        if found.is_directory() {
            assert_eq!(listing.length, 0, "{path:?}");
            continue;
        }
        assert_eq!(button.read(&path), (0, found.bytes.clone()), "{path:?}");
    }
}

/// Demands the same files and directories, each with the same extension byte, stamps and bytes.
pub fn demand_same(told: &Contents, expected: &Contents) {
    for path in told.keys().chain(expected.keys()) {
        assert_eq!(told.get(path), expected.get(path), "path {path:?}");
    }
}
