//! The check of an image (document 01, "Order of the check"). The first fault met is the answer.

use std::collections::HashSet;

use crate::answer::{Answer, Fault};
use crate::control::{self, BitmapPlace};
use crate::entry::{Fields, LAST_FILE_EXTENSION};
use crate::geometry::Geometry;
use crate::names::{is_name, Name, ROOT};
use crate::packet::{self, Packet};
use crate::tree::{Bitmap, Content, Directory, Entry, Tree};

/// Nesting goes eight levels below the root; a subdirectory whose entry is in the root is at level one.
const DEEPEST_LEVEL: u32 = 8;

/// A directory as the check walks it: its name and start page (for back references) and its level.
#[derive(Clone, Copy)]
struct Place {
    name: Name,
    start: usize,
    level: u32,
}

/// A page of a directory's chain with the bytes of its entries, and their offset in the packet's body.
struct EntryPage<'a> {
    page: usize,
    offset: usize,
    bytes: &'a [u8],
}

/// The pages of a chain with the body of each packet.
type Chain<'a> = Vec<(usize, &'a [u8])>;

/// The state of a check: for each page whether a chain met so far has it.
struct Walk<'a> {
    geometry: &'a Geometry,
    image: &'a [u8],
    used: Vec<bool>,
}

/// A bit of the bitmap that is not as the pages in use demand.
pub(crate) struct DifferingBit {
    pub(crate) place: usize,
    /// Whether it marks a page below N that no chain has.
    pub(crate) is_mark_without_owner: bool,
}

/// Judges an image of right length: its tree, or the first fault in the order of the check.
pub(crate) fn check_image(geometry: &Geometry, image: &[u8]) -> Result<Tree, Answer> {
    let (tree, bits) = walk_image(geometry, image)?;
    match differing_bits(&bits, &tree.used).first() {
        Some(lowest) => Err(Fault::Bitmap.at(lowest.place)),
        None => Ok(tree),
    }
}

/// All of the check but its last part: the tree and the bitmap's bytes, not yet compared.
pub(crate) fn walk_image(geometry: &Geometry, image: &[u8]) -> Result<(Tree, Vec<u8>), Answer> {
    let mut walk = Walk {
        geometry,
        image,
        used: vec![false; geometry.page_count()],
    };
    let first = packet::read(geometry, image, 0)?;
    walk.used[0] = true;
    let bitmap_place = control::read_root(geometry, first.body)?;
    let (bitmap, bits) = walk.bitmap(bitmap_place)?;
    let place = Place {
        name: ROOT,
        start: 0,
        level: 0,
    };
    let root = walk.directory(place, first)?;
    let tree = Tree {
        bitmap,
        root,
        used: walk.used,
    };
    Ok((tree, bits))
}

/// The bits that differ, lowest first: bit k is 1 exactly when page k is in use, bits from N up are 0 (13).
pub(crate) fn differing_bits(bits: &[u8], used: &[bool]) -> Vec<DifferingBit> {
    let mut differing = Vec::new();
    for place in 0..bits.len() * 8 {
        let marked = bits[place / 8] >> (place % 8) & 1 == 1;
        if marked != used.get(place).copied().unwrap_or(false) {
            let of_page = place < used.len();
            differing.push(DifferingBit {
                place,
                is_mark_without_owner: marked && of_page,
            });
        }
    }
    differing
}

impl<'a> Walk<'a> {
    /// Steps to a page of a chain: number (6, told at its holder), crossed (7), packet (2).
    fn step(&mut self, number: usize, holder: usize) -> Result<Packet<'a>, Answer> {
        if number == 0 || number >= self.geometry.page_count() {
            return Err(Fault::PageNumber.at(holder));
        }
        if self.used[number] {
            return Err(Fault::Crossed.at(number));
        }
        let packet = packet::read(self.geometry, self.image, number)?;
        self.used[number] = true;
        Ok(packet)
    }

    /// Walks the chain of a file or of the bitmap file to its end.
    fn chain(&mut self, start: usize, holder: usize) -> Result<Chain<'a>, Answer> {
        let mut packet = self.step(start, holder)?;
        let mut page = start;
        let mut chain = vec![(page, packet.body)];
        while packet.pointer != 0 {
            let next = packet.pointer;
            packet = self.step(next, page)?;
            page = next;
            chain.push((page, packet.body));
        }
        Ok(chain)
    }

    /// The bitmap's place and bytes; for a bitmap file its chain, its page count, its byte count.
    fn bitmap(&mut self, place: BitmapPlace) -> Result<(Bitmap, Vec<u8>), Answer> {
        let (start, pages) = match place {
            BitmapPlace::Local(bits) => return Ok((Bitmap::Local, bits.to_vec())),
            BitmapPlace::File { start, pages } => (start, pages),
        };
        let chain = self.chain(start, 0)?;
        if chain.len() != pages {
            return Err(Fault::Count.at(0));
        }
        let mut bits = Vec::new();
        for (_, body) in &chain {
            bits.extend_from_slice(body);
        }
        if bits.len() != self.geometry.bitmap_file_length() {
            return Err(Fault::Count.at(0));
        }
        let pages = chain.iter().map(|&(page, _)| page).collect();
        Ok((Bitmap::File(pages), bits))
    }

    /// A directory is judged by its whole chain first, then by its entries in chain order.
    fn directory(&mut self, place: Place, first: Packet<'a>) -> Result<Directory, Answer> {
        let chain = self.directory_chain(place.start, first)?;
        let mut seen = HashSet::new();
        let mut entries = Vec::new();
        for entry_page in &chain {
            self.page_entries(entry_page, place, &mut seen, &mut entries)?;
        }
        let pages = chain.iter().map(|entry_page| entry_page.page).collect();
        Ok(Directory { pages, entries })
    }

    /// Adds the plain entries of a directory page. Stamps are counted for the entry after them; if the page has none after them they are 10.
    fn page_entries(
        &mut self,
        entry_page: &EntryPage,
        place: Place,
        seen: &mut HashSet<(Name, u8)>,
        entries: &mut Vec<Entry>,
    ) -> Result<(), Answer> {
        let length = self.geometry.entry_length();
        let mut stamps = 0;
        for (slot, bytes) in entry_page.bytes.chunks_exact(length).enumerate() {
            let fields = Fields::from_bytes(self.geometry, bytes);
            if fields.is_stamp() {
                stamps += 1;
                continue;
            }
            let content = self.entry(&fields, entry_page.page, place, seen)?;
            entries.push(Entry {
                fields,
                page: entry_page.page,
                offset: entry_page.offset + slot * length,
                stamps,
                content,
            });
            stamps = 0;
        }
        if stamps > 0 {
            return Err(Fault::Extension.at(entry_page.page));
        }
        Ok(())
    }

    /// Walks a directory's chain from its first page, whose packet and control field are judged already.
    fn directory_chain(
        &mut self,
        start: usize,
        first: Packet<'a>,
    ) -> Result<Vec<EntryPage<'a>>, Answer> {
        let mut page = start;
        let mut packet = first;
        let mut chain = vec![self.entry_page(page, packet, self.geometry.control_length())?];
        while packet.pointer != 0 {
            let next = packet.pointer;
            packet = self.step(next, page)?;
            page = next;
            chain.push(self.entry_page(page, packet, 0)?);
        }
        Ok(chain)
    }

    /// The entries of a directory page begin at `offset`; bytes that are no whole entry are 8 at that page.
    fn entry_page(
        &self,
        page: usize,
        packet: Packet<'a>,
        offset: usize,
    ) -> Result<EntryPage<'a>, Answer> {
        let bytes = packet.body.get(offset..).unwrap_or(&[]);
        if bytes.len() % self.geometry.entry_length() != 0 {
            return Err(Fault::Count.at(page));
        }
        Ok(EntryPage {
            page,
            offset,
            bytes,
        })
    }

    /// Judges an entry: its own bytes, twice (11), level (12), a subdirectory's count (8), then what it leads to.
    fn entry(
        &mut self,
        fields: &Fields,
        page: usize,
        parent: Place,
        seen: &mut HashSet<(Name, u8)>,
    ) -> Result<Content, Answer> {
        judge_name_and_extension(fields, page)?;
        if !seen.insert((fields.name, fields.extension_number())) {
            return Err(Fault::Twice.at(page));
        }
        if fields.is_subdirectory() {
            if parent.level + 1 > DEEPEST_LEVEL {
                return Err(Fault::TooDeep.at(page));
            }
            if fields.pages != 0 {
                return Err(Fault::Count.at(page));
            }
        }
        if fields.is_subdirectory() {
            self.subdirectory(fields, page, parent)
        } else {
            self.file(fields, page)
        }
    }

    /// A file: its start page and chain, then its page count, which equals the chain (8 at the entry's page).
    fn file(&mut self, fields: &Fields, page: usize) -> Result<Content, Answer> {
        let chain = self.chain(fields.start, page)?;
        if chain.len() != fields.pages {
            return Err(Fault::Count.at(page));
        }
        Ok(Content::File {
            length: chain.iter().map(|(_, body)| body.len()).sum(),
            pages: chain.iter().map(|&(page, _)| page).collect(),
        })
    }

    /// A subdirectory: its start page, its first page's control field, then its directory to the end.
    fn subdirectory(
        &mut self,
        fields: &Fields,
        page: usize,
        parent: Place,
    ) -> Result<Content, Answer> {
        let first = self.step(fields.start, page)?;
        control::judge_subdirectory(
            self.geometry,
            first.body,
            fields.start,
            &parent.name,
            parent.start,
        )?;
        let place = Place {
            name: fields.name,
            start: fields.start,
            level: parent.level + 1,
        };
        Ok(Content::Directory(self.directory(place, first)?))
    }
}

/// Name (9), extension number neither a file's nor a subdirectory's (10).
fn judge_name_and_extension(fields: &Fields, page: usize) -> Result<(), Answer> {
    if !is_name(&fields.name) {
        return Err(Fault::Name.at(page));
    }
    if fields.extension_number() > LAST_FILE_EXTENSION && !fields.is_subdirectory() {
        return Err(Fault::Extension.at(page));
    }
    Ok(())
}
