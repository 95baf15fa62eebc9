//! Every small tree of some number of pages, as a plan: files, and perhaps a subdirectory, whose pages of entries are full or not. Entries have stamps
//! before them if they are asked for.

use crate::plans::{directories, geometry};
use referee::builder::pages::name;
use referee::builder::plan::{
    BitmapPlan, Chain, DirectoryPlan, FilePlan, Fill, ImagePlan, Item, Stamps,
};
use referee::geometry::Geometry;
use referee::rng::Rng;

/// P of all small trees.
pub const PAGE_LENGTH: u32 = 32;

/// The extension number of all files.
const EXTENSION: u8 = 7;

/// The name of a new file to put.
const NEW: &str = "NEW";

/// The slots that each entry of a directory page takes: one for itself, and one for each of its stamps.
pub type PageSlots = Vec<usize>;

/// A small tree. The root has a large file first, if there is one, then a subdirectory, if there is one, then files.
#[derive(Clone, Debug)]
pub struct Tree {
    pub page_count: u32,
    pub local_bitmap: bool,
    /// The pages of a large file, which leaves few for all else; 0 for none.
    pub large_pages: usize,
    /// The entries in each page of the root.
    pub root: Vec<PageSlots>,
    /// The entries in each page of the subdirectory.
    pub sub: Option<Vec<PageSlots>>,
    /// Whether puts go to the subdirectory, and not to the root.
    pub in_sub: bool,
    /// The pages of the first file that puts can replace; all others have one.
    pub first_pages: usize,
}

/// The most pages that parts of a tree have, and the most stamps of an entry.
#[derive(Clone, Copy)]
pub struct Most {
    pub root_pages: usize,
    pub sub_pages: usize,
    pub first_pages: usize,
    pub stamps: usize,
}

/// Every tree of this page count with no more pages and stamps than these, and with a stamp if there may be any; many have more pages than there are.
pub fn trees(page_count: u32, large_pages: usize, most: Most) -> Vec<Tree> {
    let geometry = geometry(PAGE_LENGTH, page_count);
    let mut subs = vec![None];
    subs.extend(all_slots(&geometry, most.sub_pages, most.stamps).map(Some));
    let mut trees = Vec::new();
    for local_bitmap in [true, false] {
        for root in all_slots(&geometry, most.root_pages, most.stamps) {
            for sub in &subs {
                let tree = Tree {
                    page_count,
                    local_bitmap,
                    large_pages,
                    root: root.clone(),
                    sub: sub.clone(),
                    in_sub: false,
                    first_pages: 1,
                };
                trees.extend(tree.with_targets(most.first_pages));
            }
        }
    }
    trees.retain(|tree| !tree.local_bitmap || geometry.allows_local_bitmap());
    trees.retain(|tree| most.stamps == 0 || tree.has_stamps());
    trees
}

/// Every way to take the slots of each page of a directory of up to so many pages, by entries with up to so many stamps.
fn all_slots(
    geometry: &Geometry,
    most_pages: usize,
    most_stamps: usize,
) -> impl Iterator<Item = Vec<PageSlots>> {
    let later = page_slots(geometry.continuation_entries(), most_stamps);
    let first = page_slots(geometry.first_page_entries(), most_stamps).into_iter();
    let mut all: Vec<Vec<PageSlots>> = first.map(|page| vec![page]).collect();
    let mut last = all.clone();
    for _ in 1..most_pages {
        let longer = last.iter().flat_map(|pages| {
            let with = |page: &PageSlots| [pages.as_slice(), &[page.clone()]].concat();
            later.iter().map(with)
        });
        last = longer.collect();
        all.extend(last.clone());
    }
    all.into_iter()
}

/// Every way to take up to so many slots of a page, by entries with up to so many stamps.
fn page_slots(most: usize, most_stamps: usize) -> Vec<PageSlots> {
    let mut all = vec![Vec::new()];
    let mut last = all.clone();
    while !last.is_empty() {
        let longer = last.iter().flat_map(|slots| {
            let with = |entry: usize| [slots.as_slice(), &[entry]].concat();
            (1..=1 + most_stamps).map(with)
        });
        last = longer
            .filter(|slots: &PageSlots| slots.iter().sum::<usize>() <= most)
            .collect();
        all.extend(last.clone());
    }
    all
}

/// The number of entries in pages.
fn entries_in(pages: &[PageSlots]) -> usize {
    pages.iter().map(Vec::len).sum()
}

/// A stamp that looks like the entry of a file to put but for its first byte, in which no two of a directory agree.
fn stamp(geometry: &Geometry, number: usize) -> Vec<u8> {
    let numbers = [geometry.number_bytes(1), geometry.number_bytes(1)];
    let mut stamp = [&name(NEW)[..], &[EXTENSION], &numbers.concat()].concat();
    stamp[0] = 0x80 | number as u8;
    stamp
}

/// The stamps of entries that take these slots.
fn stamps(geometry: &Geometry, items: &[Item], slots: &[PageSlots]) -> Stamps {
    let mut stamps = Stamps::new();
    let mut made = 0;
    for (item, taken) in items.iter().zip(slots.concat()) {
        let own = made..made + taken - 1;
        made = own.end;
        stamps.insert(
            item.key(),
            own.map(|number| stamp(geometry, number)).collect(),
        );
    }
    stamps
}

/// The pages after page 0 in an order: as they are given out, rising, falling or at random.
pub fn page_order(page_count: u32, kind: usize, rng: &mut Rng) -> Vec<usize> {
    let mut pages: Vec<usize> = (1..page_count as usize).collect();
    match kind % 3 {
        0 => {}
        1 => pages.reverse(),
        _ => rng.shuffle(&mut pages),
    }
    pages
}

/// Pages to give out, the first first.
struct Pool<'a> {
    pages: &'a [usize],
}

impl Pool<'_> {
    /// Takes so many pages, if there are enough.
    fn take(&mut self, count: usize) -> Option<Vec<usize>> {
        let (taken, left) = self.pages.split_at_checked(count)?;
        self.pages = left;
        Some(taken.to_vec())
    }

    /// Files of one page each, but the first, which has so many. Their packets are not full.
    fn files(&mut self, letter: char, count: usize, first_pages: usize) -> Option<Vec<Item>> {
        let files = (0..count).map(|number| {
            let pages = self.take(if number == 0 { first_pages } else { 1 })?;
            let text = format!("{letter}{number}");
            let bytes = text.as_bytes().repeat(pages.len());
            let lengths = vec![text.len(); pages.len()];
            let chain = Chain { pages, lengths };
            let file = FilePlan::new(name(&text), EXTENSION, &bytes, chain);
            Some(Item::File(file))
        });
        files.collect()
    }
}

impl Tree {
    /// The tree with each of its directories to put to, and each number of pages that the first file there can have.
    fn with_targets(self, most_first_pages: usize) -> Vec<Tree> {
        let mut trees = Vec::new();
        for in_sub in [false, true] {
            let files = match (in_sub, &self.sub) {
                (true, None) => continue,
                (true, Some(slots)) => entries_in(slots),
                (false, _) => self.root_files().unwrap_or(0),
            };
            let most = if files == 0 { 1 } else { most_first_pages };
            trees.extend((1..=most).map(|first_pages| Tree {
                in_sub,
                first_pages,
                ..self.clone()
            }));
        }
        trees
    }

    /// The files in the root besides the large one; none if the root has not the entries for large file and subdirectory.
    fn root_files(&self) -> Option<usize> {
        let others = usize::from(self.large_pages > 0) + usize::from(self.sub.is_some());
        entries_in(&self.root).checked_sub(others)
    }

    /// Whether any entry has stamps.
    fn has_stamps(&self) -> bool {
        let mut pages = self.root.iter().chain(self.sub.iter().flatten());
        pages.any(|slots| slots.iter().any(|&taken| taken > 1))
    }

    /// The names that lead to the directory to put to.
    fn target(&self) -> &'static [u8] {
        match self.in_sub {
            true => b"SUB ",
            false => b"",
        }
    }

    /// The image's plan with these pages given out; none if they are not enough.
    pub fn plan(&self, pages: &[usize]) -> Option<ImagePlan> {
        let mut pool = Pool { pages };
        let mut items = Vec::new();
        if self.large_pages > 0 {
            items.extend(pool.files('L', 1, self.large_pages)?);
        }
        let bitmap = self.bitmap(&mut pool)?;
        let root_pages = [vec![0], pool.take(self.root.len() - 1)?].concat();
        if let Some(slots) = &self.sub {
            items.push(self.subdirectory(slots, &mut pool)?);
        }
        let first_pages = if self.in_sub { 1 } else { self.first_pages };
        items.extend(pool.files('R', self.root_files()?, first_pages)?);
        Some(ImagePlan {
            page_length: PAGE_LENGTH,
            page_count: self.page_count,
            bitmap,
            root: self.directory(root_pages, &self.root, items),
            fill: Fill::Byte(0xFF),
        })
    }

    /// A directory on these pages, whose entries and their stamps take these slots.
    fn directory(&self, pages: Vec<usize>, slots: &[PageSlots], items: Vec<Item>) -> DirectoryPlan {
        let geometry = geometry(PAGE_LENGTH, self.page_count);
        DirectoryPlan {
            pages,
            counts: slots.iter().map(Vec::len).collect(),
            stamps: stamps(&geometry, &items, slots),
            items,
        }
    }

    /// The bitmap's place.
    fn bitmap(&self, pool: &mut Pool) -> Option<BitmapPlan> {
        if self.local_bitmap {
            return Some(BitmapPlan::Local);
        }
        let geometry = geometry(PAGE_LENGTH, self.page_count);
        let bytes = geometry.bitmap_file_length();
        let pages = pool.take(bytes.div_ceil(geometry.max_data()))?;
        let chain = Chain::full(&pages, bytes, geometry.max_data());
        Some(BitmapPlan::File(chain))
    }

    /// The subdirectory whose entries and their stamps take these slots.
    fn subdirectory(&self, slots: &[PageSlots], pool: &mut Pool) -> Option<Item> {
        let first_pages = if self.in_sub { self.first_pages } else { 1 };
        let pages = pool.take(slots.len())?;
        let items = pool.files('S', entries_in(slots), first_pages)?;
        Some(Item::Directory {
            name: name("SUB"),
            hidden: false,
            directory: self.directory(pages, slots, items),
        })
    }

    /// The paths to put to: of a new file in the target, and of the first and the last file there besides the large one.
    pub fn paths(&self, plan: &ImagePlan) -> Vec<Vec<u8>> {
        let mut places = directories(plan).into_iter();
        let target = places.find(|(names, _)| names == self.target());
        let items = target.map_or(&[][..], |(_, directory)| &directory.items);
        let files = items.iter().filter(|item| match item {
            Item::File(file) => file.name != name("L0"),
            Item::Directory { .. } => false,
        });
        let files: Vec<[u8; 4]> = files.map(Item::name).collect();
        let mut names = vec![name(NEW)];
        names.extend(files.first());
        names.extend(files.last().filter(|_| files.len() > 1));
        let path = |own: [u8; 4]| [self.target(), &own, &[EXTENSION]].concat();
        names.into_iter().map(path).collect()
    }
}
