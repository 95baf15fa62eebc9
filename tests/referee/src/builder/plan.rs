//! The description of an image, and the image built from it with the answers it must give.

use std::collections::BTreeMap;

use super::pages::Pages;
use crate::answer::{Listing, Totals};
use crate::geometry::Geometry;
use crate::owners::{record_bytes, RECORD_LENGTH};
use crate::rng::Rng;

/// A chain: its pages in order, and the number of data bytes in the packet of each.
#[derive(Clone, Debug, Default)]
pub struct Chain {
    pub pages: Vec<usize>,
    pub lengths: Vec<usize>,
}

/// Where the bitmap stands.
#[derive(Clone, Debug)]
pub enum BitmapPlan {
    Local,
    File(Chain),
}

/// A file; its chain's lengths add up to its bytes.
#[derive(Clone, Debug)]
pub struct FilePlan {
    pub name: [u8; 4],
    pub extension: u8,
    pub read_only: bool,
    pub bytes: Vec<u8>,
    pub chain: Chain,
}

/// The bytes of the stamps before an entry, each as long as an entry, by the entry's name and extension number.
pub type Stamps = BTreeMap<([u8; 4], u8), Vec<Vec<u8>>>;

/// A directory: its pages in chain order, the number of plain entries in each, the entries, and the stamps of those that have any.
#[derive(Clone, Debug, Default)]
pub struct DirectoryPlan {
    pub pages: Vec<usize>,
    pub counts: Vec<usize>,
    pub items: Vec<Item>,
    pub stamps: Stamps,
}

/// An entry of a directory.
#[derive(Clone, Debug)]
pub enum Item {
    File(FilePlan),
    Directory {
        name: [u8; 4],
        hidden: bool,
        directory: DirectoryPlan,
    },
}

/// What unused bytes and free pages hold.
#[derive(Clone, Copy, Debug)]
pub enum Fill {
    Byte(u8),
    Random(u64),
}

/// A whole image; the root's first page is page 0.
#[derive(Clone, Debug)]
pub struct ImagePlan {
    pub page_length: u32,
    pub page_count: u32,
    pub bitmap: BitmapPlan,
    pub root: DirectoryPlan,
    pub fill: Fill,
}

/// Whose chain it is.
#[derive(Clone, Copy, Debug, PartialEq, Eq)]
pub enum ChainOf {
    Root,
    Bitmap,
    File,
    Directory,
}

/// A chain of a built image.
#[derive(Clone, Debug)]
pub struct BuiltChain {
    pub of: ChainOf,
    pub pages: Vec<usize>,
}

/// An entry of a built image.
#[derive(Clone, Debug)]
pub struct BuiltEntry {
    /// What listing must tell of it.
    pub listing: Listing,
    /// The names of its directories and its own name; for a file also its extension number.
    pub path: Vec<u8>,
    /// A file's bytes.
    pub bytes: Vec<u8>,
    /// The directory page that holds the entry.
    pub page: usize,
    /// The place of the entry's first byte in that page.
    pub offset: usize,
    /// The number of stamps directly before it.
    pub stamps: usize,
    /// The place in `chains` of the directory that holds it.
    pub directory: usize,
    /// The place in `chains` of its own chain.
    pub chain: usize,
}

/// A built image with the answers it must give.
#[derive(Clone, Debug)]
pub struct Built {
    pub page_length: u32,
    pub page_count: u32,
    pub image: Vec<u8>,
    /// The owner table as bytes, four for each page.
    pub owners: Vec<u8>,
    pub totals: Totals,
    /// All entries in walk order.
    pub entries: Vec<BuiltEntry>,
    /// All chains in the order in which the check walks them.
    pub chains: Vec<BuiltChain>,
    pub local_bitmap: bool,
}

impl Built {
    /// The bytes of each stamp before an entry, in order.
    pub fn stamps_of(&self, entry: &BuiltEntry) -> impl Iterator<Item = &[u8]> {
        let geometry = Geometry::new(self.page_length, self.page_count);
        let length = geometry.expect("P and N of the plan").entry_length();
        let end = entry.page * self.page_length as usize + entry.offset;
        self.image[end - entry.stamps * length..end].chunks(length)
    }
}

impl Chain {
    /// A chain over these pages for `total` bytes, all packets full but the last.
    pub fn full(pages: &[usize], total: usize, max_data: usize) -> Chain {
        let mut rest = total;
        let mut lengths = Vec::new();
        for _ in pages {
            let length = rest.min(max_data);
            lengths.push(length);
            rest -= length;
        }
        Chain {
            pages: pages.to_vec(),
            lengths,
        }
    }
}

impl FilePlan {
    /// A file that may be written, with its bytes laid over `chain`.
    pub fn new(name: [u8; 4], extension: u8, bytes: &[u8], chain: Chain) -> FilePlan {
        FilePlan {
            name,
            extension,
            read_only: false,
            bytes: bytes.to_vec(),
            chain,
        }
    }
}

impl Item {
    /// The entry's name.
    pub fn name(&self) -> [u8; 4] {
        match self {
            Item::File(file) => file.name,
            Item::Directory { name, .. } => *name,
        }
    }

    /// The extension byte with the attribute bit.
    fn extension(&self) -> u8 {
        match self {
            Item::File(file) => file.extension | u8::from(file.read_only) << 7,
            Item::Directory { hidden, .. } => 127 | u8::from(*hidden) << 7,
        }
    }

    /// Name and extension number.
    pub fn key(&self) -> ([u8; 4], u8) {
        (self.name(), self.extension() & 0x7F)
    }

    /// The pages of its own chain.
    fn pages(&self) -> &[usize] {
        match self {
            Item::File(file) => &file.chain.pages,
            Item::Directory { directory, .. } => &directory.pages,
        }
    }

    /// The page count that its entry tells: 0 for a directory.
    fn page_count(&self) -> usize {
        match self {
            Item::File(file) => file.chain.pages.len(),
            Item::Directory { .. } => 0,
        }
    }
}

impl DirectoryPlan {
    /// The stamps before an entry.
    pub fn stamps_of(&self, item: &Item) -> &[Vec<u8>] {
        self.stamps.get(&item.key()).map_or(&[], Vec::as_slice)
    }

    /// The slots that the last page has taken.
    pub fn last_slots(&self) -> usize {
        let count = self.counts.last().copied().unwrap_or(0);
        let items = &self.items[self.items.len() - count..];
        items
            .iter()
            .map(|item| 1 + self.stamps_of(item).len())
            .sum()
    }

    /// The slots that each page has taken: one for each entry and one for each stamp.
    pub fn slots(&self) -> Vec<usize> {
        let mut items = self.items.iter();
        let taken = |item: &Item| 1 + self.stamps_of(item).len();
        let page_slots = |&count: &usize| items.by_ref().take(count).map(taken).sum();
        self.counts.iter().map(page_slots).collect()
    }

    /// Adds the pages of this directory and of all below it.
    fn add_pages(&self, pages: &mut Vec<usize>) {
        pages.extend(&self.pages);
        for item in &self.items {
            match item {
                Item::File(file) => pages.extend(&file.chain.pages),
                Item::Directory { directory, .. } => directory.add_pages(pages),
            }
        }
    }
}

/// The place of a directory while it is written.
#[derive(Clone)]
struct Place {
    name: [u8; 4],
    path: Vec<u8>,
    level: u32,
    chain: usize,
}

/// Where an entry stands: its page, the place of its first byte there, and the number of stamps before it.
#[derive(Clone, Copy)]
struct Slot {
    page: usize,
    offset: usize,
    stamps: usize,
}

/// The image and the answers while they are made.
struct Work {
    pages: Pages,
    owners: Vec<[u8; RECORD_LENGTH]>,
    entries: Vec<BuiltEntry>,
    chains: Vec<BuiltChain>,
}

impl ImagePlan {
    /// Builds the image.
    pub fn build(&self) -> Built {
        let mut pages = Pages::new(self.page_length, self.page_count);
        match self.fill {
            Fill::Byte(byte) => pages.image.fill(byte),
            Fill::Random(seed) => pages.image = Rng::new(seed).bytes(pages.image.len()),
        }
        let mut work = Work {
            owners: vec![record_bytes(0, 0); self.page_count as usize],
            pages,
            entries: Vec::new(),
            chains: Vec::new(),
        };
        let control = self.write_bitmap(&mut work);
        let chain = work.add_chain(ChainOf::Root, &self.root.pages, 1);
        let place = Place {
            name: *b"ROOT",
            path: Vec::new(),
            level: 0,
            chain,
        };
        work.directory(&self.root, &control, place);
        self.finish(work)
    }

    /// All pages in use, in no particular order.
    pub fn used_pages(&self) -> Vec<usize> {
        let mut pages = Vec::new();
        self.root.add_pages(&mut pages);
        if let BitmapPlan::File(chain) = &self.bitmap {
            pages.extend(&chain.pages);
        }
        pages
    }

    /// Writes the bitmap file, if there is one, and gives the root's control field.
    fn write_bitmap(&self, work: &mut Work) -> Vec<u8> {
        let used = self.used_pages();
        let BitmapPlan::File(chain) = &self.bitmap else {
            return work.pages.local_control(&used);
        };
        let mut bits = vec![0; (self.page_count as usize).div_ceil(8)];
        for page in used {
            bits[page / 8] |= 1 << (page % 8);
        }
        work.add_chain(ChainOf::Bitmap, &chain.pages, 2);
        work.data_chain(chain, &bits);
        work.pages.file_control(chain.pages[0], chain.pages.len())
    }

    /// Puts the answers together.
    fn finish(&self, work: Work) -> Built {
        let is_directory = |entry: &&BuiltEntry| entry.listing.extension == 127;
        let directories = work.entries.iter().filter(is_directory).count();
        Built {
            page_length: self.page_length,
            page_count: self.page_count,
            owners: work.owners.concat(),
            totals: Totals {
                number: 0,
                page: 0,
                used: self.used_pages().len() as u32,
                files: (work.entries.len() - directories) as u32,
                directories: directories as u32,
            },
            image: work.pages.image,
            entries: work.entries,
            chains: work.chains,
            local_bitmap: matches!(self.bitmap, BitmapPlan::Local),
        }
    }
}

impl Work {
    /// Records a chain: its owner, and each page's place in it.
    fn add_chain(&mut self, of: ChainOf, pages: &[usize], owner: usize) -> usize {
        for (place, &page) in pages.iter().enumerate() {
            self.owners[page] = record_bytes(owner, place);
        }
        self.chains.push(BuiltChain {
            of,
            pages: pages.to_vec(),
        });
        self.chains.len() - 1
    }

    /// Writes the packets of a chain of data.
    fn data_chain(&mut self, chain: &Chain, bytes: &[u8]) {
        let mut done = 0;
        for (place, &page) in chain.pages.iter().enumerate() {
            let end = done + chain.lengths[place];
            let pointer = chain.pages.get(place + 1).copied().unwrap_or(0);
            self.pages.packet(page, &bytes[done..end], pointer);
            done = end;
        }
        assert_eq!(done, bytes.len(), "a chain's lengths add up to its bytes");
    }

    /// Writes a directory's packets, then what its entries lead to.
    fn directory(&mut self, plan: &DirectoryPlan, control: &[u8], place: Place) {
        let mut items = plan.items.iter();
        let mut placed = Vec::new();
        for (index, &page) in plan.pages.iter().enumerate() {
            let mut body = Vec::new();
            if index == 0 {
                body.extend_from_slice(control);
            }
            for item in items.by_ref().take(plan.counts[index]) {
                let stamps = plan.stamps_of(item);
                body.extend(stamps.concat());
                let slot = Slot {
                    page,
                    offset: 1 + body.len(),
                    stamps: stamps.len(),
                };
                placed.push((item, slot));
                body.extend_from_slice(&item.name());
                body.push(item.extension());
                body.extend(self.pages.geometry.number_bytes(item.pages()[0]));
                body.extend(self.pages.geometry.number_bytes(item.page_count()));
            }
            let pointer = plan.pages.get(index + 1).copied().unwrap_or(0);
            self.pages.packet(page, &body, pointer);
        }
        assert_eq!(placed.len(), plan.items.len(), "every entry has a page");
        for (item, slot) in placed {
            self.item(item, slot, plan.pages[0], &place);
        }
    }

    /// Records an entry and writes what it leads to.
    fn item(&mut self, item: &Item, slot: Slot, start: usize, place: &Place) {
        let owner = 3 + self.entries.len();
        let of = match item {
            Item::File(_) => ChainOf::File,
            Item::Directory { .. } => ChainOf::Directory,
        };
        let chain = self.add_chain(of, item.pages(), owner);
        let mut path = place.path.clone();
        path.extend(item.name());
        self.add_entry(item, slot, &path, place, chain);
        match item {
            Item::File(file) => self.data_chain(&file.chain, &file.bytes),
            Item::Directory {
                name, directory, ..
            } => {
                let parent: String = place.name.iter().map(|&byte| char::from(byte)).collect();
                let control = self.pages.sub_control(&parent, start);
                let below = Place {
                    name: *name,
                    path,
                    level: place.level + 1,
                    chain,
                };
                self.directory(directory, &control, below);
            }
        }
    }

    /// Records what the calls must tell of an entry.
    fn add_entry(&mut self, item: &Item, slot: Slot, path: &[u8], place: &Place, chain: usize) {
        let mut path = path.to_vec();
        let mut bytes = Vec::new();
        if let Item::File(file) = item {
            path.push(file.extension);
            bytes = file.bytes.clone();
        }
        let listing = Listing {
            number: 0,
            page: 0,
            level: place.level,
            name: u32::from_le_bytes(item.name()),
            extension: u32::from(item.extension() & 127),
            attribute: u32::from(item.extension() >> 7),
            start: item.pages()[0] as u32,
            pages: item.page_count() as u32,
            length: bytes.len() as u32,
        };
        self.entries.push(BuiltEntry {
            listing,
            path,
            bytes,
            page: slot.page,
            offset: slot.offset,
            stamps: slot.stamps,
            directory: place.chain,
            chain,
        });
    }
}
