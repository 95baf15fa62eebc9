//! The making and removing of directories by one of the two programs alone, with what must hold afterwards, for cases whose bytes and answers are
//! written by hand.

use crate::{answer, library, table_bytes, Button};
use referee::builder::pages::{name, Pages};
use referee::{Answer, Listing, Totals};

/// What the owner table holds before a call.
pub const BEFORE: u8 = 0xC7;

/// Bytes of the owner table past the first N records.
pub const EXTRA: usize = 7;

/// What free pages and unused bytes of the images hold, so that it is seen that they stay.
pub const UNUSED: u8 = 0xE5;

/// One of the two programs.
#[derive(Clone, Copy, Debug)]
pub enum Program {
    Library,
    Second,
}

/// An edit of a directory.
#[derive(Clone, Copy, Debug, PartialEq, Eq, PartialOrd, Ord)]
pub enum Edit {
    Make,
    Remove,
}

/// Both edits.
pub const BOTH: [Edit; 2] = [Edit::Make, Edit::Remove];

impl Program {
    /// An edit.
    pub fn edit(self, button: &mut Button, owners: &mut [u8], edit: Edit, path: &[u8]) -> Answer {
        let (p, n, image) = (button.page_length, button.page_count, &mut button.image);
        match (self, edit) {
            (Program::Library, Edit::Make) => library::make_directory(p, n, image, path, owners),
            (Program::Library, Edit::Remove) => {
                library::remove_directory(p, n, image, path, owners)
            }
            (Program::Second, Edit::Make) => referee::make_directory(p, n, image, path, owners),
            (Program::Second, Edit::Remove) => referee::remove_directory(p, n, image, path, owners),
        }
    }

    /// A check, with the owner table.
    pub fn check(self, button: &Button) -> (Totals, Vec<u8>) {
        let (p, n, image) = (button.page_length, button.page_count, &button.image);
        let mut owners = vec![BEFORE; table_bytes(n)];
        let told = match self {
            Program::Library => library::check(p, n, image, &mut owners),
            Program::Second => referee::check(p, n, image, &mut owners),
        };
        (told, owners)
    }

    /// All entries in walk order.
    pub fn list(self, button: &Button) -> Vec<Listing> {
        let (p, n, image) = (button.page_length, button.page_count, &button.image);
        let mut owners = vec![BEFORE; table_bytes(n)];
        let listings = (0..).map(|position| match self {
            Program::Library => library::list(p, n, image, &mut owners, position),
            Program::Second => referee::list(p, n, image, &mut owners, position),
        });
        listings.take_while(|listing| listing.number == 0).collect()
    }

    /// The number of a put.
    pub fn put(self, button: &mut Button, path: &[u8], bytes: &[u8]) -> u32 {
        let (p, n, image) = (button.page_length, button.page_count, &mut button.image);
        let mut owners = vec![BEFORE; table_bytes(n)];
        match self {
            Program::Library => library::put(p, n, image, path, bytes, &mut owners).number,
            Program::Second => referee::put(p, n, image, path, bytes, &mut owners).number,
        }
    }

    /// The number of a delete.
    pub fn delete(self, button: &mut Button, path: &[u8]) -> u32 {
        let (p, n, image) = (button.page_length, button.page_count, &mut button.image);
        let mut owners = vec![BEFORE; table_bytes(n)];
        match self {
            Program::Library => library::delete(p, n, image, path, &mut owners).number,
            Program::Second => referee::delete(p, n, image, path, &mut owners).number,
        }
    }

    /// Formats a button over unused bytes.
    pub fn formatted(self, page_length: u32, page_count: u32, local: u32) -> Button {
        let mut button = Button::zeros(page_length, page_count);
        button.image.fill(UNUSED);
        let (p, n, image) = (page_length, page_count, &mut button.image);
        let mut owners = vec![BEFORE; table_bytes(n)];
        let told = match self {
            Program::Library => library::format(p, n, image, &mut owners, local),
            Program::Second => referee::format(p, n, image, &mut owners, local),
        };
        assert_eq!(told, answer(0, 0));
        button
    }

    /// Demands that an edit is done: number and page 0, the owner table with these records, (page, owner, place), every other page free, and nothing
    /// written past it. The image is accepted, and a check leaves the same records.
    pub fn done(self, button: &mut Button, edit: Edit, path: &[u8], records: &[(usize, u8, u8)]) {
        let used = table_bytes(button.page_count);
        let mut owners = vec![BEFORE; used + EXTRA];
        let told = self.edit(button, &mut owners, edit, path);
        assert_eq!(told, answer(0, 0), "{edit:?} of {path:?}");
        let mut expected = vec![0; used];
        for &(page, owner, place) in records {
            expected[4 * page..4 * page + 4].copy_from_slice(&[owner, 0, place, 0]);
        }
        let (front, rest) = owners.split_at(used);
        assert_eq!(front, expected, "owners after {edit:?} of {path:?}");
        assert!(rest.iter().all(|&byte| byte == BEFORE));
        let (totals, owners) = self.check(button);
        assert_eq!((totals.number, totals.used as usize), (0, records.len()));
        assert_eq!(owners, expected, "owners of a check");
    }

    /// Demands that an edit of an accepted image is refused with this number and page 0, the image as before, and its owner table.
    pub fn refused(self, button: &Button, edit: Edit, path: &[u8], number: u32) {
        let mut after = button.clone();
        let (totals, expected) = self.check(button);
        assert_eq!(totals.number, 0, "an accepted image");
        let mut owners = vec![BEFORE; expected.len() + EXTRA];
        let told = self.edit(&mut after, &mut owners, edit, path);
        assert_eq!(told, answer(number, 0), "{edit:?} of {path:?}");
        assert!(after == *button, "image after {edit:?} of {path:?}");
        let (front, rest) = owners.split_at(expected.len());
        assert_eq!(front, expected, "owners after {edit:?} of {path:?}");
        assert!(rest.iter().all(|&byte| byte == BEFORE));
    }

    /// The number of an edit of a copy.
    pub fn number(self, button: &Button, edit: Edit, path: &[u8]) -> u32 {
        let mut owners = vec![BEFORE; table_bytes(button.page_count)];
        self.edit(&mut button.clone(), &mut owners, edit, path)
            .number
    }
}

/// The path of a directory.
pub fn names(names: &[&str]) -> Vec<u8> {
    names.iter().flat_map(|text| name(text)).collect()
}

/// An image of unused bytes.
pub fn unused(page_length: u32, page_count: u32) -> Pages {
    let mut pages = Pages::new(page_length, page_count);
    pages.image.fill(UNUSED);
    pages
}
