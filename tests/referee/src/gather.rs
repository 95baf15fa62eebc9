//! Gathering a crowded button: an accepted copy of an image whose chains are consecutive and as short as they can be (document 02, A7).

use crate::answer::Answer;
use crate::bitmap;
use crate::control::{self, BitmapPlace};
use crate::edit;
use crate::entry::Fields;
use crate::geometry::Geometry;
use crate::names::{Name, ROOT};
use crate::packet::{self, Written};
use crate::tree::{Bitmap, Content, Directory, Entry, Tree};

/// What unused bytes of the copy hold, whole free pages too.
const UNUSED: u8 = 0xFF;

/// The copy while it is made. Its pages are given out from page 1 up; page 0 is the root's first.
struct Copy<'a> {
    geometry: &'a Geometry,
    source: &'a [u8],
    image: Vec<u8>,
    /// The lowest page that is not given out yet; at the end all pages below it are in use.
    next: usize,
}

/// The gathered copy of an accepted image with this tree: pages are given out to the bitmap file, then to the root's further pages, then to each
/// entry's chain in walk order.
pub(crate) fn gather(geometry: &Geometry, source: &[u8], tree: &Tree) -> Result<Vec<u8>, Answer> {
    let mut copy = Copy {
        geometry,
        source,
        image: vec![UNUSED; source.len()],
        next: 1,
    };
    let bitmap_pages = match tree.bitmap {
        Bitmap::Local => Vec::new(),
        Bitmap::File(_) => copy.take(data_pages(geometry, geometry.bitmap_file_length())),
    };
    let further = filled_pages(geometry, &tree.root).len() - 1;
    let root_pages = [vec![0], copy.take(further)].concat();
    let mut bodies = copy.entries(&tree.root, &ROOT, 0)?;
    let used: Vec<bool> = (0..geometry.page_count())
        .map(|page| page < copy.next)
        .collect();
    let place = match tree.bitmap {
        Bitmap::Local => BitmapPlace::Local(bitmap::local_bytes_of(&used)),
        Bitmap::File(_) => BitmapPlace::File {
            start: bitmap_pages[0],
            pages: bitmap_pages.len(),
        },
    };
    bodies[0].splice(0..0, control::root_field(geometry, place));
    copy.write_bodies(&root_pages, bodies);
    copy.write_data(&bitmap_pages, &bitmap::bytes_of(&used));
    Ok(copy.image)
}

/// The pages of a chain for so many bytes, all packets full but the last; an empty file takes one page.
fn data_pages(geometry: &Geometry, length: usize) -> usize {
    length.div_ceil(geometry.max_data()).max(1)
}

/// The entries of each page of a directory, filled in order. An entry and its stamps go to the page that is being filled if they fit there together,
/// else they begin the next one, even if the first page then has no entries.
fn filled_pages<'a>(geometry: &Geometry, directory: &'a Directory) -> Vec<Vec<&'a Entry>> {
    let mut pages = Vec::new();
    let mut page = Vec::new();
    let mut space = geometry.first_page_entries();
    for entry in &directory.entries {
        let slots = entry.stamps + 1;
        if slots > space {
            pages.push(page);
            page = Vec::new();
            space = geometry.continuation_entries();
        }
        page.push(entry);
        space -= slots;
    }
    pages.push(page);
    pages
}

impl Copy<'_> {
    /// Gives out the next pages. There are enough: no chain of the copy is longer than the source's.
    fn take(&mut self, count: usize) -> Vec<usize> {
        let first = self.next;
        self.next += count;
        (first..self.next).collect()
    }

    /// Lays what the entries of a directory lead to, one after the other, and gives the bytes of stamps and entries in each of its pages.
    /// `name` and `start` are the directory's own, for those below it.
    fn entries(
        &mut self,
        directory: &Directory,
        name: &Name,
        start: usize,
    ) -> Result<Vec<Vec<u8>>, Answer> {
        let mut bodies = Vec::new();
        for page in filled_pages(self.geometry, directory) {
            let mut body = Vec::new();
            for entry in page {
                body.extend(self.stamps(entry)?);
                let fields = self.content(entry, name, start)?;
                body.extend(fields.to_bytes(self.geometry));
            }
            bodies.push(body);
        }
        Ok(bodies)
    }

    /// The bytes of the stamps before an entry.
    fn stamps(&self, entry: &Entry) -> Result<Vec<u8>, Answer> {
        let body = packet::read(self.geometry, self.source, entry.page)?.body;
        let length = entry.stamps * self.geometry.entry_length();
        Ok(body[entry.offset - length..entry.offset].to_vec())
    }

    /// Lays what an entry leads to and gives the entry's fields in the copy. `parent` and `parent_start` are the directory that holds the entry.
    fn content(
        &mut self,
        entry: &Entry,
        parent: &Name,
        parent_start: usize,
    ) -> Result<Fields, Answer> {
        let (start, pages) = match &entry.content {
            Content::File { pages, length } => self.file(pages, *length)?,
            Content::Directory(directory) => {
                let control = control::subdirectory_field(self.geometry, parent, parent_start);
                self.subdirectory(directory, &entry.fields.name, control)?
            }
        };
        Ok(Fields {
            start,
            pages,
            ..entry.fields
        })
    }

    /// Lays a file of so many bytes, whose chain in the source has these pages; its start page and number of pages in the copy.
    fn file(&mut self, source_pages: &[usize], length: usize) -> Result<(usize, usize), Answer> {
        let mut bytes = Vec::new();
        for &page in source_pages {
            bytes.extend_from_slice(packet::read(self.geometry, self.source, page)?.body);
        }
        let pages = self.take(data_pages(self.geometry, length));
        self.write_data(&pages, &bytes);
        Ok((pages[0], pages.len()))
    }

    /// Lays a subdirectory, its own pages before those of its entries; its start page, and the 0 that its entry tells as number of pages.
    fn subdirectory(
        &mut self,
        directory: &Directory,
        name: &Name,
        control: Vec<u8>,
    ) -> Result<(usize, usize), Answer> {
        let pages = self.take(filled_pages(self.geometry, directory).len());
        let mut bodies = self.entries(directory, name, pages[0])?;
        bodies[0].splice(0..0, control);
        self.write_bodies(&pages, bodies);
        Ok((pages[0], 0))
    }

    /// Writes bytes over a chain, all packets full but the last; none over no pages.
    fn write_data(&mut self, pages: &[usize], bytes: &[u8]) {
        for written in edit::file_packets(self.geometry, pages, bytes) {
            written.write(self.geometry, &mut self.image);
        }
    }

    /// Writes the packets of a directory's chain.
    fn write_bodies(&mut self, pages: &[usize], bodies: Vec<Vec<u8>>) {
        for (place, body) in bodies.into_iter().enumerate() {
            let written = Written {
                page: pages[place],
                body,
                pointer: pages.get(place + 1).copied().unwrap_or(0),
            };
            written.write(self.geometry, &mut self.image);
        }
    }
}

#[cfg(test)]
mod tests {
    use crate::builder::pages::Pages;
    use crate::{check, gather, Answer};

    /// An image of 16 pages of 32 bytes, all of them unused.
    fn unused() -> Pages {
        let mut pages = Pages::new(32, 16);
        pages.image.fill(0xFF);
        pages
    }

    /// A stamp: its first byte is above 127, the others are any.
    fn stamp(first: u8) -> Vec<u8> {
        [&[first], &b"any\x64\x00\x99"[..]].concat()
    }

    /// Demands the copy of a source, whose unused bytes are 0, and the table: owner and place of the pages in use, in order of the pages.
    fn demand(source: &Pages, expected: &Pages, records: &[(u8, u8)]) {
        let mut copy = vec![0x55; 512];
        let mut owners = [0x99; 70];
        let told = gather(32, 16, &source.image, &mut copy, &mut owners);
        assert_eq!(told, Answer::default());
        for page in 0..16 {
            let bytes = &copy[32 * page..32 * page + 32];
            assert_eq!(bytes, expected.page(page), "page {page}");
        }
        let mut table = vec![0; 64];
        for (page, &(owner, place)) in records.iter().enumerate() {
            table[4 * page..4 * page + 4].copy_from_slice(&[owner, 0, place, 0]);
        }
        assert_eq!((&owners[..64], &owners[64..]), (&table[..], &[0x99; 6][..]));
        let totals = check(32, 16, &copy, &mut owners);
        assert_eq!((totals.number, totals.used as usize), (0, records.len()));
        assert_eq!(owners[..64], table, "owners of a check of the copy");
    }

    /// The root on three pages, the second empty; an empty file on two; a hidden directory on two, the first without entries, and a directory below
    /// it; a read-only file whose 29 bytes lie on three pages.
    fn crowded() -> Pages {
        let mut pages = Pages::new(32, 16);
        let used = [0, 2, 3, 4, 5, 6, 8, 9, 11, 13, 14, 15];
        let root = [pages.local_control(&used), pages.entry("E", 0, 9, 2)];
        let last = [
            pages.entry("D", 0xFF, 11, 0),
            pages.entry("LOG", 0x87, 6, 3),
        ];
        let below = [pages.entry("IN", 1, 13, 1), pages.entry("SUB", 127, 8, 0)];
        let (first, second) = (pages.sub_control("ROOT", 0), pages.sub_control("D", 11));
        pages.packet(0, &root.concat(), 5);
        pages.packet(5, &[], 14).packet(14, &last.concat(), 0);
        pages.packet(9, &[], 2).packet(2, &[], 0);
        pages.packet(11, &first, 4).packet(4, &below.concat(), 0);
        pages.packet(13, b"in", 0).packet(8, &second, 0);
        pages.packet(6, &[1; 10], 15).packet(15, &[], 3);
        pages.packet(3, &[2; 19], 0);
        pages
    }

    #[test]
    fn chains_are_consecutive_and_packets_full() {
        let mut pages = unused();
        let root = [
            pages.local_control(&[0, 1, 2, 3, 4, 5, 6]),
            pages.entry("E", 0, 1, 1),
            pages.entry("D", 0xFF, 2, 0),
            pages.entry("LOG", 0x87, 5, 2),
        ];
        let below = [
            pages.sub_control("ROOT", 0),
            pages.entry("IN", 1, 3, 1),
            pages.entry("SUB", 127, 4, 0),
        ];
        let second = pages.sub_control("D", 2);
        pages.packet(0, &root.concat(), 0).packet(1, &[], 0);
        pages.packet(2, &below.concat(), 0).packet(3, b"in", 0);
        let log = [[1; 10].as_slice(), &[2; 18]].concat();
        pages.packet(4, &second, 0);
        pages.packet(5, &log, 6).packet(6, &[2], 0);
        let records = [(1, 0), (3, 0), (4, 0), (5, 0), (6, 0), (7, 0), (7, 1)];
        demand(&crowded(), &pages, &records);
    }

    /// The bitmap file's two bytes stand on three pages, one of them empty; in the copy they stand on one, before the root's further page.
    #[test]
    fn bitmap_file_comes_first_and_then_the_roots_further_pages() {
        let mut source = Pages::new(32, 16);
        let names = ["A", "B", "C", "D"];
        let start = [12, 3, 8, 7];
        let file = |place: usize| source.entry(names[place], 1, start[place], 1);
        let root = [source.file_control(9, 3), file(0), file(1)];
        let second = [file(2), file(3)];
        source.packet(0, &root.concat(), 6);
        source.packet(6, &second.concat(), 0);
        source.packet(9, &[0xDD], 2).packet(2, &[], 4);
        source.packet(4, &[0x13], 0);
        let mut pages = unused();
        let file = |place: usize| pages.entry(names[place], 1, 3 + place, 1);
        let root = [pages.file_control(1, 1), file(0), file(1), file(2)];
        let second = file(3);
        pages.packet(0, &root.concat(), 2).packet(2, &second, 0);
        pages.packet(1, &[0x7F, 0], 0);
        for (place, text) in names.into_iter().enumerate() {
            source.packet(start[place], text.as_bytes(), 0);
            pages.packet(3 + place, text.as_bytes(), 0);
        }
        let records = [(1, 0), (2, 0), (1, 1), (3, 0), (4, 0), (5, 0), (6, 0)];
        demand(&source, &pages, &records);
    }

    /// A with a stamp leaves one slot of page 0, too few for B and its stamp, which begin the next page; C goes there too, though page 0 has a slot
    /// for it.
    #[test]
    fn an_entry_and_its_stamps_stay_together_in_order() {
        let mut source = Pages::new(32, 16);
        let root = [source.local_control(&[0, 3, 4, 5, 6, 7]), stamp(0x80)];
        let a = source.entry("A", 1, 3, 1);
        source.packet(0, &[root.concat(), a].concat(), 6);
        let b = [stamp(0xFF), source.entry("B", 1, 4, 1)];
        let c = source.entry("C", 1, 5, 1);
        source.packet(6, &b.concat(), 7).packet(7, &c, 0);
        let mut pages = unused();
        let root = [pages.local_control(&[0, 1, 2, 3, 4]), stamp(0x80)];
        let a = pages.entry("A", 1, 2, 1);
        pages.packet(0, &[root.concat(), a].concat(), 1);
        let b = [stamp(0xFF), pages.entry("B", 1, 3, 1)];
        let c = pages.entry("C", 1, 4, 1);
        pages.packet(1, &[b.concat(), c].concat(), 0);
        for (place, text) in [b"A", b"B", b"C"].into_iter().enumerate() {
            source.packet(3 + place, text, 0);
            pages.packet(2 + place, text, 0);
        }
        let records = [(1, 0), (1, 1), (3, 0), (4, 0), (5, 0)];
        demand(&source, &pages, &records);
    }

    /// Three stamps and their entry fit no first page, which then has no entries.
    #[test]
    fn a_first_page_without_entries() {
        let mut source = Pages::new(32, 16);
        let group = |pages: &Pages, start: usize| {
            let stamps = [stamp(0x81), stamp(0x82), stamp(0x83)];
            [stamps.concat(), pages.entry("A", 1, start, 1)].concat()
        };
        let (control, body) = (source.local_control(&[0, 2, 4]), group(&source, 2));
        source.packet(0, &control, 4).packet(4, &body, 0);
        let mut pages = unused();
        let (control, body) = (pages.local_control(&[0, 1, 2]), group(&pages, 2));
        pages.packet(0, &control, 1).packet(1, &body, 0);
        source.packet(2, b"a", 0);
        pages.packet(2, b"a", 0);
        demand(&source, &pages, &[(1, 0), (1, 1), (3, 0)]);
    }

    /// A copy of another length is 1 whatever else is wrong, and the table is untouched; a fault of the source leaves a table of zeros.
    #[test]
    fn refusals_leave_the_copy_alone() {
        let mut source = crowded();
        let call = |image: &[u8], length: usize, table: usize| {
            let mut copy = vec![0x55; length];
            let mut owners = vec![0x99; table];
            let told = gather(32, 16, image, &mut copy, &mut owners);
            assert_eq!(copy, vec![0x55; length]);
            (told.number, told.page, owners)
        };
        for (length, table) in [(0, 64), (511, 64), (513, 64), (512, 63), (513, 0)] {
            let told = call(&source.image, length, table);
            assert_eq!(told, (1, 0, vec![0x99; table]));
        }
        assert_eq!(call(&[0; 511], 511, 64), (1, 0, vec![0x99; 64]));
        source.break_check(15);
        assert_eq!(call(&source.image, 512, 64), (2, 15, vec![0; 64]));
        assert_eq!(call(&source.image, 480, 64), (1, 0, vec![0x99; 64]));
    }
}
