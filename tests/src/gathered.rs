//! What a gathered copy is (document 02, A7), worked out in two ways: on the plan of its source, and from the owner records and packets of the copy.

use crate::plans::geometry;
use crate::{chain_of, Button, Record, FREE};
use referee::builder::plan::{BitmapPlan, Chain, DirectoryPlan, FilePlan, Fill, ImagePlan, Item};
use referee::geometry::Geometry;
use referee::Listing;

/// The owner of the root's pages.
const ROOT: u16 = 1;

/// The owner of the bitmap file's pages.
const BITMAP_FILE: u16 = 2;

/// The owner of the pages of the entry at walk position 0.
const FIRST_ENTRY: u16 = 3;

/// What unused bytes hold.
const UNUSED: u8 = 0xFF;

/// Pages to give out, rising, and the sizes of the image.
struct Layout {
    geometry: Geometry,
    next: usize,
}

/// The plan of the gathered copy of an image with this plan.
pub fn gathered_plan(plan: &ImagePlan) -> ImagePlan {
    let mut layout = Layout {
        geometry: geometry(plan.page_length, plan.page_count),
        next: 1,
    };
    let bitmap = match plan.bitmap {
        BitmapPlan::Local => BitmapPlan::Local,
        BitmapPlan::File(_) => {
            let bytes = layout.geometry.bitmap_file_length();
            BitmapPlan::File(layout.data_chain(bytes))
        }
    };
    let counts = gathered_counts(&layout.geometry, &plan.root);
    let pages = [vec![0], layout.take(counts.len() - 1)].concat();
    let root = layout.directory(&plan.root, pages, counts);
    ImagePlan {
        bitmap,
        root,
        fill: Fill::Byte(UNUSED),
        ..*plan
    }
}

/// The slots that each entry takes: one for itself and one for each of its stamps.
fn group_slots(directory: &DirectoryPlan) -> Vec<usize> {
    let slots = |item: &Item| 1 + directory.stamps_of(item).len();
    directory.items.iter().map(slots).collect()
}

/// The entries in each page of a gathered directory: as many as there are slots for.
pub fn gathered_counts(geometry: &Geometry, directory: &DirectoryPlan) -> Vec<usize> {
    let slots = group_slots(directory);
    let fit = |rest: &[usize], space: usize| {
        let sum = |count: usize| rest[..count].iter().sum::<usize>();
        let fitting = (0..=rest.len()).take_while(|&count| sum(count) <= space);
        fitting.last().unwrap_or(0)
    };
    let mut counts = vec![fit(&slots, geometry.first_page_entries())];
    let mut done = counts[0];
    while done < slots.len() {
        let count = fit(&slots[done..], geometry.continuation_entries());
        assert!(count > 0, "an entry and its stamps fit a page");
        counts.push(count);
        done += count;
    }
    counts
}

impl Layout {
    /// The next pages.
    fn take(&mut self, count: usize) -> Vec<usize> {
        self.next += count;
        (self.next - count..self.next).collect()
    }

    /// The chain of so many bytes, at least one page, all packets full but the last.
    fn data_chain(&mut self, bytes: usize) -> Chain {
        let most = self.geometry.max_data();
        let pages = self.take(bytes.div_ceil(most).max(1));
        Chain::full(&pages, bytes, most)
    }

    /// A directory over its pages, with what its entries lead to after them.
    fn directory(
        &mut self,
        plan: &DirectoryPlan,
        pages: Vec<usize>,
        counts: Vec<usize>,
    ) -> DirectoryPlan {
        DirectoryPlan {
            pages,
            counts,
            items: plan.items.iter().map(|item| self.item(item)).collect(),
            stamps: plan.stamps.clone(),
        }
    }

    /// An entry with its own pages, then those of the entries below it.
    fn item(&mut self, item: &Item) -> Item {
        match item {
            Item::File(file) => Item::File(FilePlan {
                chain: self.data_chain(file.bytes.len()),
                ..file.clone()
            }),
            Item::Directory {
                name,
                hidden,
                directory,
            } => {
                let counts = gathered_counts(&self.geometry, directory);
                let pages = self.take(counts.len());
                Item::Directory {
                    name: *name,
                    hidden: *hidden,
                    directory: self.directory(directory, pages, counts),
                }
            }
        }
    }
}

/// A button with what check and listing tell of it.
struct Seen<'a> {
    button: &'a Button,
    owners: Vec<Record>,
    listings: Vec<Listing>,
}

impl Seen<'_> {
    /// An accepted button.
    fn new(button: &Button) -> Seen<'_> {
        let (totals, owners) = button.check();
        assert_eq!(totals.number, 0, "an accepted image");
        Seen {
            button,
            owners,
            listings: button.list_all(),
        }
    }

    /// Demands of every chain that no packet has space for what stands at the front of the next.
    fn demand_full_packets(&self) {
        let sizes = geometry(self.button.page_length, self.button.page_count);
        let pages = self.button.pages();
        for owner in ROOT..FIRST_ENTRY + self.listings.len() as u16 {
            for two in chain_of(&self.owners, owner).windows(2) {
                let (body, next) = (pages.body(two[0]), pages.body(two[1]));
                assert!(!next.is_empty(), "page {} of {owner} is empty", two[1]);
                let front = match self.is_directory(owner) {
                    true => group_length(&sizes, &next),
                    false => 1,
                };
                let is_full = body.len() + front > sizes.max_data();
                assert!(is_full, "page {} of {owner} has space", two[0]);
            }
        }
    }

    /// Whether an owner is a directory.
    fn is_directory(&self, owner: u16) -> bool {
        match owner {
            ROOT => true,
            BITMAP_FILE => false,
            _ => self.listings[usize::from(owner - FIRST_ENTRY)].extension == 127,
        }
    }

    /// The stamps and entries of a directory in chain order; of a plain entry name and extension byte, of a stamp all bytes.
    fn slots(&self, owner: u16) -> Vec<Vec<u8>> {
        let sizes = geometry(self.button.page_length, self.button.page_count);
        let pages = self.button.pages();
        let mut slots = Vec::new();
        for (place, page) in chain_of(&self.owners, owner).into_iter().enumerate() {
            let body = pages.body(page);
            let front = if place == 0 {
                sizes.control_length()
            } else {
                0
            };
            slots.extend(body[front..].chunks(sizes.entry_length()).map(|slot| {
                let length = if slot[0] > 127 { slot.len() } else { 5 };
                slot[..length].to_vec()
            }));
        }
        slots
    }
}

/// Demands of the owner records of a check that page 0 is the root's first and that from page 1 up come the bitmap file, the root's further pages and
/// each entry's chain in walk order, each from its first page to its last, and then free pages only.
pub fn demand_order(owners: &[Record]) {
    let rank = |&(owner, place): &Record| match owner {
        BITMAP_FILE => (0, place),
        ROOT => (1, place),
        _ => (owner, place),
    };
    assert_eq!(owners[0], (ROOT, 0), "page 0");
    let mut sorted = owners[1..].to_vec();
    sorted.retain(|&record| record != FREE);
    sorted.sort_unstable_by_key(rank);
    for (page, &record) in owners.iter().enumerate().skip(1) {
        let expected = sorted.get(page - 1).copied().unwrap_or(FREE);
        assert_eq!(record, expected, "page {page}");
    }
}

/// Demands FF in free pages and behind the packets of all others.
pub fn demand_unused(button: &Button, owners: &[Record]) {
    for (page, &record) in owners.iter().enumerate() {
        let bytes = button.page(page);
        let packet = match record {
            FREE => 0,
            _ => 3 + usize::from(bytes[0]),
        };
        let is_unused = bytes[packet..].iter().all(|&byte| byte == UNUSED);
        assert!(is_unused, "unused bytes of page {page}");
    }
}

/// The bytes of the stamps at the front of a directory page and of the entry that they belong to.
fn group_length(geometry: &Geometry, body: &[u8]) -> usize {
    let slots = body.chunks(geometry.entry_length());
    let stamps = slots.take_while(|slot| slot[0] > 127).count();
    (stamps + 1) * geometry.entry_length()
}

/// What a listing tells but for the pages, which a copy has of its own.
fn told(listing: &Listing) -> Listing {
    Listing {
        start: 0,
        pages: 0,
        ..*listing
    }
}

/// The paths of entries that are listed in walk order; a directory's path is the names alone.
fn paths(listings: &[Listing]) -> Vec<Vec<u8>> {
    let mut names: Vec<[u8; 4]> = Vec::new();
    let path_of = |listing: &Listing| {
        names.truncate(listing.level as usize);
        names.push(listing.name.to_le_bytes());
        let mut path = names.concat();
        if listing.extension != 127 {
            path.push(listing.extension as u8);
        }
        path
    };
    listings.iter().map(path_of).collect()
}

/// Demands that a copy of a button has the same tree, by what the calls tell of both: every path listed in the same order with the same attribute and
/// length, each file with the same bytes, each directory with the same stamps before the same entries, and the same kind of bitmap. No packet of the
/// copy has space for what stands in the next one.
pub fn demand_same_tree(source: &Button, copy: &Button) {
    let (source, copy) = (Seen::new(source), Seen::new(copy));
    let all = |seen: &Seen| seen.listings.iter().map(told).collect::<Vec<Listing>>();
    assert_eq!(all(&copy), all(&source));
    let is_local = |seen: &Seen| chain_of(&seen.owners, BITMAP_FILE).is_empty();
    assert_eq!(is_local(&copy), is_local(&source), "local bitmap");
    assert_eq!(copy.slots(ROOT), source.slots(ROOT), "the root");
    for (position, path) in paths(&source.listings).iter().enumerate() {
        let owner = FIRST_ENTRY + position as u16;
        if source.is_directory(owner) {
            assert_eq!(copy.slots(owner), source.slots(owner), "{path:?}");
        } else {
            let read = copy.button.read(path);
            assert_eq!(read.0, 0, "{path:?}");
            assert!(read == source.button.read(path), "bytes of {path:?}");
        }
    }
    copy.demand_full_packets();
}
