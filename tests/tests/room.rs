//! "No room" (17) against a search over all ways to place a put, or a new directory, on small images.
//!
//! Document 01, "Words of demand 3", says which images could hold the file of a put. Such an image, a candidate, is accepted and reads the
//! asked bytes at the path. Every other entry stands in the same directory with the same bytes, in any order. Every other file reads as
//! before. Every other file and directory has the pages it had and no others; the target, the directory that the path's names lead to, has
//! at least these. The bitmap is local in both images, or its file has the same pages. Every entry that was there, a replaced one too, has the same
//! stamps before it in the same order (document 02, A2).
//!
//! So the pages of all that is kept are given, and no page is in two chains. What is left to choose are two sets among the other pages:
//! those of the file, and those that join the target. (Entries that are neither kept nor the file's, and stamps of a new file, would only take pages
//! or slots away.) The search tries every such pair of sets. A pair fits if packets filled to the brim hold the bytes, and there is a way to lay the
//! target's entries on its pages, each together with its stamps; every such way is tried, whatever the order of the entries was. For each pair that
//! fits an image is built and judged by the words.
//!
//! A put must be answered with 17 exactly if no pair fits, and else leave a candidate; none has fewer pages in use.
//!
//! So it is for making a directory (document 02, A1): in place of the file a candidate holds the new directory, without entries and with pages of its
//! own, and the parent is the target.
//!
//! Programs: the library and the second program. Each call is made by both; every answer and every lent byte is compared.
//! The images that the search builds are checked, listed and read by both too. That every pair of sets is tried is a test of the search alone.
//! The archive is made by `tools/build`.

use std::collections::{BTreeMap, BTreeSet};

use common::plans::{
    directories, directory_mut, file_place, geometry, plan_with, plan_with_directory, split,
    split_directory, Room,
};
use common::puts::{make_features, room_features, MAKE_ROOM, ROOM, STAMPED};
use common::trees::{page_order, trees, Most, Tree, PAGE_LENGTH};
use common::{answer, both, chain_of, table_bytes, Button, Seed, Tally};
use referee::builder::plan::{Chain, DirectoryPlan, FilePlan, ImagePlan, Item, Stamps};
use referee::geometry::Geometry;
use referee::rng::Rng;
use referee::{Answer, Listing};

type PageSet = BTreeSet<usize>;

/// The bytes of the stamps before each entry of a directory that has any, in order, by the entry's name and extension number.
type StampsOf = BTreeMap<Vec<u8>, Vec<Vec<u8>>>;

/// What is asked for: a put of these bytes to a file, or the making of a directory.
#[derive(Clone, Copy)]
struct Asked<'a> {
    path: &'a [u8],
    /// The file's bytes; none for a directory.
    bytes: Option<&'a [u8]>,
}

impl<'a> Asked<'a> {
    /// A put.
    fn put(path: &'a [u8], bytes: &'a [u8]) -> Asked<'a> {
        Asked {
            path,
            bytes: Some(bytes),
        }
    }

    /// The making of a directory.
    fn make(path: &'a [u8]) -> Asked<'a> {
        Asked { path, bytes: None }
    }

    /// The names that lead to the target, and what follows them.
    fn split(self) -> (&'a [u8], &'a [u8]) {
        match self.bytes {
            Some(_) => split(self.path),
            None => split_directory(self.path),
        }
    }

    /// Whether an accepted image has the file with its bytes, or the directory without entries and with pages of its own.
    fn is_held(self, new: &Contents) -> bool {
        let found = new.entries.get(self.path);
        match self.bytes {
            Some(bytes) => found.is_some_and(|file| file.bytes == bytes),
            None => {
                let is_below =
                    |path: &&Vec<u8>| path.len() > self.path.len() && path.starts_with(self.path);
                // A file of the same name has an extension number behind it, and is no entry of the directory.
                let own = |path: &&Vec<u8>| path.len() >= self.path.len() + 4;
                let below = new.entries.keys().filter(is_below).filter(own).count();
                found.is_some_and(|directory| !directory.pages.is_empty()) && below == 0
            }
        }
    }
}

/// What an entry is and leads to.
struct Found {
    /// The entry's fields: name, extension number, attribute, start page, number of pages.
    entry: [u32; 5],
    /// The stamps before it.
    stamps: Vec<Vec<u8>>,
    pages: PageSet,
    /// A file's bytes as read.
    bytes: Vec<u8>,
}

/// What an accepted image holds, as check, list and read tell it.
struct Contents {
    page_count: u32,
    used: u32,
    local_bitmap: bool,
    bitmap: PageSet,
    root: PageSet,
    /// The entries by path: the directories' names and their own, and a file's extension number.
    entries: BTreeMap<Vec<u8>, Found>,
}

impl Contents {
    /// What an image holds; none if it is not accepted.
    fn of(button: &Button) -> Option<Contents> {
        let (totals, owners) = button.check();
        if totals.number != 0 {
            return None;
        }
        let pages_of = |owner: u16| -> PageSet { chain_of(&owners, owner).into_iter().collect() };
        let mut entries = BTreeMap::new();
        let mut names = Vec::new();
        // Of each directory on the way to an entry, the root's first.
        let mut stamps = vec![stamps_on(button, &chain_of(&owners, 1))];
        for (position, listing) in button.list_all().into_iter().enumerate() {
            names.truncate(4 * listing.level as usize);
            stamps.truncate(1 + listing.level as usize);
            let mut path = names.clone();
            path.extend(listing.name.to_le_bytes());
            let owner = 3 + position as u16;
            let mut found = Found {
                entry: fields(&listing),
                stamps: stamps_of(&stamps[listing.level as usize], &listing),
                pages: pages_of(owner),
                bytes: Vec::new(),
            };
            if listing.extension == 127 {
                names = path.clone();
                stamps.push(stamps_on(button, &chain_of(&owners, owner)));
            } else {
                path.push(listing.extension as u8);
                found.bytes = button.read(&path).1;
            }
            entries.insert(path, found);
        }
        let number_length = button.pages().geometry.number_length();
        Some(Contents {
            page_count: button.page_count,
            used: totals.used,
            local_bitmap: button.page(0)[2 + number_length] & 0x80 != 0,
            bitmap: pages_of(2),
            root: pages_of(1),
            entries,
        })
    }

    /// The pages of the directory that names lead to.
    fn directory_pages(&self, names: &[u8]) -> PageSet {
        match self.entries.get(names) {
            Some(directory) => directory.pages.clone(),
            None => self.root.clone(),
        }
    }

    /// The pages that a put of this path, or the making of a directory, need not keep: those of the file that is replaced, and those of nothing.
    fn other_pages(&self, path: &[u8]) -> Vec<usize> {
        let others = self.entries.iter().filter(|(other, _)| *other != path);
        let mut kept: PageSet = others
            .flat_map(|(_, found)| &found.pages)
            .copied()
            .collect();
        kept.extend(&self.root);
        kept.extend(&self.bitmap);
        let pages = 0..self.page_count as usize;
        pages.filter(|page| !kept.contains(page)).collect()
    }
}

/// The fields of an entry.
fn fields(listing: &Listing) -> [u32; 5] {
    [
        listing.name,
        listing.extension,
        listing.attribute,
        listing.start,
        listing.pages,
    ]
}

/// The stamps on a directory's pages, by their bytes: the first of a stamp is above 127, and it stands before its entry.
fn stamps_on(button: &Button, pages: &[usize]) -> StampsOf {
    let geometry = geometry(button.page_length, button.page_count);
    let mut all = StampsOf::new();
    for (place, &page) in pages.iter().enumerate() {
        let control = match place {
            0 => geometry.control_length(),
            _ => 0,
        };
        let packet = button.page(page);
        let end = 1 + usize::from(packet[0]) - geometry.number_length();
        let mut own = Vec::new();
        for slot in packet[1 + control..end].chunks(geometry.entry_length()) {
            if slot[0] > 127 {
                own.push(slot.to_vec());
            } else if !own.is_empty() {
                let key = [&slot[..4], &[slot[4] & 127]].concat();
                all.insert(key, std::mem::take(&mut own));
            }
        }
    }
    all
}

/// The stamps of an entry among those of its directory.
fn stamps_of(all: &StampsOf, listing: &Listing) -> Vec<Vec<u8>> {
    let mut key = listing.name.to_le_bytes().to_vec();
    key.push(listing.extension as u8);
    all.get(&key).cloned().unwrap_or_default()
}

/// Whether a file or directory has the pages it had and no others; the target has at least these.
fn has_its_pages(old: &PageSet, new: &PageSet, is_target: bool) -> bool {
    old == new || (is_target && old.is_subset(new))
}

/// Whether an image that is accepted is a candidate for what is asked, by the words of demand 3.
fn is_candidate(old: &Contents, new: &Contents, asked: Asked) -> bool {
    let (target, _) = asked.split();
    let path = asked.path;
    let holds = asked.is_held(new);
    let bitmap = old.local_bitmap == new.local_bitmap && old.bitmap == new.bitmap;
    let root = has_its_pages(&old.root, &new.root, target.is_empty());
    let mut others = old.entries.iter().filter(|(other, _)| *other != path);
    let kept = others.all(|(other, old)| {
        new.entries.get(other).is_some_and(|new| {
            let pages = has_its_pages(&old.pages, &new.pages, other == target);
            new.entry == old.entry && new.bytes == old.bytes && pages
        })
    });
    let stamps = old.entries.iter().all(|(path, old)| {
        let new = new.entries.get(path);
        new.is_some_and(|new| new.stamps == old.stamps)
    });
    holds && bitmap && root && kept && stamps
}

/// A way to place what is asked: the pages of the file or the new directory, and those that join the target.
#[derive(Clone, Default)]
struct Way {
    file: Vec<usize>,
    joining: Vec<usize>,
}

/// Every way to give each of these pages to the file, to the target or to neither.
fn ways(pages: &[usize]) -> Vec<Way> {
    pages.iter().fold(vec![Way::default()], |ways, &page| {
        let mut more = ways.clone();
        for way in &ways {
            let (mut to_file, mut to_target) = (way.clone(), way.clone());
            to_file.file.push(page);
            to_target.joining.push(page);
            more.extend([to_file, to_target]);
        }
        more
    })
}

/// A file's chain over these pages, packets filled to the brim; none if they do not hold so many bytes, or there is no page.
fn chain_over(geometry: &Geometry, pages: &[usize], length: usize) -> Option<Chain> {
    let chain = Chain::full(pages, length, geometry.max_data());
    let held: usize = chain.lengths.iter().sum();
    (held == length && !pages.is_empty()).then_some(chain)
}

/// A page for each of these entries, by the slots that each takes and those that each page has left; none if there is no such way.
fn pages_for(entries: &[usize], left: &mut [usize]) -> Option<Vec<usize>> {
    let Some((&taken, others)) = entries.split_first() else {
        return Some(Vec::new());
    };
    if entries.iter().sum::<usize>() > left.iter().sum() {
        return None;
    }
    for page in 0..left.len() {
        if taken > left[page] {
            continue;
        }
        left[page] -= taken;
        let rest = pages_for(others, left);
        left[page] += taken;
        if let Some(rest) = rest {
            return Some([vec![page], rest].concat());
        }
    }
    None
}

/// Lays a directory's entries, each with its stamps, on its pages; none if there is no way to do so.
fn lay_entries(geometry: &Geometry, directory: &mut DirectoryPlan) -> Option<()> {
    let taken = |item: &Item| 1 + directory.stamps_of(item).len();
    let entries: Vec<usize> = directory.items.iter().map(taken).collect();
    let mut left = vec![geometry.continuation_entries(); directory.pages.len()];
    left[0] = geometry.first_page_entries();
    let pages = pages_for(&entries, &mut left)?;
    let count = |page: usize| pages.iter().filter(|&&other| other == page).count();
    directory.counts = (0..directory.pages.len()).map(count).collect();
    let mut items: Vec<_> = pages.into_iter().zip(directory.items.drain(..)).collect();
    items.sort_by_key(|(page, _)| *page);
    directory.items = items.into_iter().map(|(_, item)| item).collect();
    Some(())
}

/// The new entry with its pages: a file of these bytes, packets filled to the brim, or a directory without entries; none if they do not hold it.
fn new_item(geometry: &Geometry, asked: Asked, pages: &[usize]) -> Option<Item> {
    let (_, own) = asked.split();
    let name = [own[0], own[1], own[2], own[3]];
    let Some(bytes) = asked.bytes else {
        return (!pages.is_empty()).then(|| Item::Directory {
            name,
            hidden: false,
            directory: DirectoryPlan {
                pages: pages.to_vec(),
                counts: vec![0; pages.len()],
                ..DirectoryPlan::default()
            },
        });
    };
    let chain = chain_over(geometry, pages, bytes.len())?;
    Some(Item::File(FilePlan::new(name, own[4], bytes, chain)))
}

/// The image of a plan with the file or the directory placed in this way, as a plan; none if the way does not fit.
fn placed(plan: &ImagePlan, asked: Asked, way: &Way) -> Option<ImagePlan> {
    let geometry = geometry(plan.page_length, plan.page_count);
    let item = new_item(&geometry, asked, &way.file)?;
    let mut plan = plan.clone();
    let (names, own) = asked.split();
    let target = directory_mut(&mut plan.root, names)?;
    if let Some(place) = replaced_place(target, asked, own) {
        target.items.remove(place);
    }
    target.items.push(item);
    target.pages.extend(&way.joining);
    lay_entries(&geometry, target)?;
    Some(plan)
}

/// The place of the file that a put replaces; none for a directory.
fn replaced_place(target: &DirectoryPlan, asked: Asked, own: &[u8]) -> Option<usize> {
    asked.bytes.and_then(|_| file_place(target, own))
}

/// What the search for candidates found.
#[derive(Default)]
struct Search {
    ways: u32,
    fitting: u32,
    /// The least number of pages in use.
    least: Option<u32>,
}

/// Tries every way to place what is asked; the image of each that fits is a candidate.
fn search(plan: &ImagePlan, old: &Contents, asked: Asked) -> Search {
    let mut search = Search::default();
    for way in ways(&old.other_pages(asked.path)) {
        search.ways += 1;
        let Some(image) = placed(plan, asked, &way) else {
            continue;
        };
        search.fitting += 1;
        let new = Contents::of(&Button::from(&image.build())).expect("accepted");
        assert!(is_candidate(old, &new, asked), "a candidate");
        let least = search.least.unwrap_or(new.used);
        search.least = Some(least.min(new.used));
    }
    search
}

/// A tree's image, what it holds, and the counts of what was met.
struct Trial<'a> {
    plan: &'a ImagePlan,
    button: Button,
    old: Contents,
    tally: &'a mut Tally,
    rng: &'a mut Rng,
}

impl Trial<'_> {
    /// Puts files of every number of pages, up to one more than there could be, with a full last packet and with one byte in it.
    fn put_all(&mut self, path: &[u8]) {
        let packet = geometry(PAGE_LENGTH, self.plan.page_count).max_data();
        for pages in 0..=self.old.other_pages(path).len() {
            for length in [pages * packet, pages * packet + 1] {
                let bytes = self.rng.bytes(length);
                self.put(path, &bytes);
            }
        }
    }

    /// Demands the answer and the number of pages in use that the search finds.
    fn put(&mut self, path: &[u8], bytes: &[u8]) {
        let asked = Asked::put(path, bytes);
        let found = search(self.plan, &self.old, asked);
        let mut button = self.button.clone();
        let table = table_bytes(self.plan.page_count);
        let told = both::put(&mut button, table, path, bytes, self.rng);
        self.count(path, bytes, &found, told);
        self.demand(asked, &found, told, &button);
    }

    /// Makes a directory; demands the answer and the number of pages in use that the search finds.
    fn make(&mut self, path: &[u8]) {
        let asked = Asked::make(path);
        let found = search(self.plan, &self.old, asked);
        let mut button = self.button.clone();
        let table = table_bytes(self.plan.page_count);
        let told = both::make_directory(&mut button, table, path, self.rng);
        self.tally.add("makes");
        self.tally.add_times("ways to make that fit", found.fitting);
        let room = Room::of_directory(self.plan, path).expect("nothing but room could refuse");
        for label in make_features(&room) {
            self.tally.add(format!("{label}: {}", told.number));
        }
        self.demand(asked, &found, told, &button);
    }

    /// Demands the answer of what is asked and the number of pages in use that the search finds.
    fn demand(&self, asked: Asked, found: &Search, told: Answer, button: &Button) {
        let Some(least) = found.least else {
            assert_eq!(told, answer(17, 0), "no way fits");
            return;
        };
        assert_eq!(told, answer(0, 0), "{} ways fit", found.fitting);
        let new = Contents::of(button).expect("accepted");
        assert!(is_candidate(&self.old, &new, asked), "a candidate");
        assert_eq!(new.used, least, "the least pages in use");
    }

    /// Counts what was met.
    fn count(&mut self, path: &[u8], bytes: &[u8], found: &Search, told: Answer) {
        self.tally.add("puts");
        self.tally.add_times("ways", found.ways);
        self.tally.add_times("ways that fit", found.fitting);
        let room = Room::of(self.plan, path).expect("nothing but room could refuse");
        for label in room_features(&room, bytes) {
            self.tally.add(format!("{label}: {}", told.number));
        }
    }
}

/// Judges every put to an image of a tree, and the making of directories, if the pages are enough for it.
fn judge(tree: &Tree, pages: &[usize], tally: &mut Tally, rng: &mut Rng) {
    let Some(plan) = tree.plan(pages) else {
        return;
    };
    tally.add("images");
    let button = Button::from(&plan.build());
    let mut trial = Trial {
        plan: &plan,
        old: Contents::of(&button).expect("accepted"),
        button,
        tally,
        rng,
    };
    for path in tree.paths(&plan) {
        trial.put_all(&path);
        // A directory of a new name, or of a file's.
        trial.make(&path[..path.len() - 1]);
    }
}

/// The labels of room that these puts meet: none is of a file that needs more pages than one too many, unless its directory must grow.
fn room_labels() -> Vec<&'static str> {
    let far = ["new file, more pages", "replaced file, more pages"];
    let is_met = |label: &&str| !far.iter().any(|far| label.starts_with(far));
    ROOM.into_iter().filter(is_met).collect()
}

/// The labels of room that the making of directories meets; those of stamps if there are any.
fn make_labels(stamps: bool) -> Vec<&'static str> {
    let is_met = |label: &&str| stamps || !label.contains("stamps");
    MAKE_ROOM.into_iter().filter(is_met).collect()
}

/// Every tree on 2 to 8 pages.
#[test]
fn no_room_in_small_images_exactly_if_no_way_fits() {
    let mut tally = Tally::default();
    let most = Most {
        root_pages: 3,
        sub_pages: 2,
        first_pages: 3,
        stamps: 0,
    };
    for page_count in 2..=8 {
        let seed = 0xD000_0000 + u64::from(page_count);
        let _seed = Seed(seed);
        let mut rng = Rng::new(seed);
        let orders = if page_count < 7 { 3 } else { 1 };
        for (place, tree) in trees(page_count, 0, most).iter().enumerate() {
            for kind in place..place + orders {
                let pages = page_order(page_count, kind, &mut rng);
                judge(tree, &pages, &mut tally, &mut rng);
            }
        }
    }
    tally.print();
    tally.demand(50_000, &["puts"]);
    tally.demand(500_000, &["ways that fit"]);
    tally.demand(20, &room_labels());
    tally.demand(5_000, &["makes"]);
    tally.demand(40_000, &["ways to make that fit"]);
    tally.demand(20, &make_labels(false));
}

/// Images of 256 pages, and of 257, whose page numbers have two bytes: a large file leaves few pages for the tree and the put.
#[test]
fn no_room_in_few_pages_of_many_exactly_if_no_way_fits() {
    let mut tally = Tally::default();
    let most = Most {
        root_pages: 2,
        sub_pages: 2,
        first_pages: 2,
        stamps: 0,
    };
    for (page_count, few) in [(256, 7), (257, 8)] {
        let seed = 0xD100_0000 + u64::from(page_count);
        let _seed = Seed(seed);
        let mut rng = Rng::new(seed);
        let large_pages = page_count as usize - few;
        for tree in trees(page_count, large_pages, most) {
            let pages = page_order(page_count, 2, &mut rng);
            judge(&tree, &pages, &mut tally, &mut rng);
        }
    }
    tally.print();
    tally.demand(2_000, &["puts"]);
    tally.demand(10, &room_labels());
    tally.demand(300, &["makes"]);
    tally.demand(5, &make_labels(false));
}

/// The labels of room that puts to images with stamps meet.
fn stamped_labels() -> Vec<&'static str> {
    [room_labels(), STAMPED.to_vec()].concat()
}

/// Every tree with stamps on 2 to 6 pages, its entries with up to three stamps each.
#[test]
fn no_room_in_small_images_with_stamps_exactly_if_no_way_fits() {
    let mut tally = Tally::default();
    let most = Most {
        root_pages: 2,
        sub_pages: 1,
        first_pages: 2,
        stamps: 3,
    };
    for page_count in 2..=6 {
        let seed = 0xD200_0000 + u64::from(page_count);
        let _seed = Seed(seed);
        let mut rng = Rng::new(seed);
        for (place, tree) in trees(page_count, 0, most).iter().enumerate() {
            let pages = page_order(page_count, place, &mut rng);
            judge(tree, &pages, &mut tally, &mut rng);
        }
    }
    tally.print();
    tally.demand(20_000, &["puts"]);
    tally.demand(50_000, &["ways that fit"]);
    tally.demand(20, &stamped_labels());
    tally.demand(2_000, &["makes"]);
    tally.demand(4_000, &["ways to make that fit"]);
    tally.demand(20, &make_labels(true));
    tally.demand(20, &["parent must grow because of stamps: 0"]);
}

/// Images of 256 and 257 pages with stamps: a large file leaves few pages for the tree and the put.
#[test]
fn no_room_in_few_pages_of_many_with_stamps_exactly_if_no_way_fits() {
    let mut tally = Tally::default();
    let most = Most {
        root_pages: 2,
        sub_pages: 1,
        first_pages: 1,
        stamps: 2,
    };
    for (page_count, few) in [(256, 6), (257, 7)] {
        let seed = 0xD300_0000 + u64::from(page_count);
        let _seed = Seed(seed);
        let mut rng = Rng::new(seed);
        let large_pages = page_count as usize - few;
        for tree in trees(page_count, large_pages, most) {
            let pages = page_order(page_count, 2, &mut rng);
            judge(&tree, &pages, &mut tally, &mut rng);
        }
    }
    tally.print();
    tally.demand(1_000, &["puts"]);
    tally.demand(5, &stamped_labels());
    tally.demand(100, &["makes"]);
    tally.demand(1, &make_labels(true));
}

/// Ways that give away pages which must be kept, too: no candidate comes of them in which such a page is the file's or the new directory's, or has
/// joined the target.
#[test]
fn no_candidate_gives_away_pages_that_must_be_kept() {
    for (most_pages, stamps) in [(5, 0), (4, 3)] {
        let mut tally = Tally::default();
        let most = Most {
            root_pages: 2,
            sub_pages: 1,
            first_pages: 2,
            stamps,
        };
        for page_count in 2..=most_pages {
            let all: Vec<usize> = (0..page_count as usize).collect();
            for tree in trees(page_count, 0, most) {
                if let Some(plan) = tree.plan(&all[1..]) {
                    for path in tree.paths(&plan) {
                        give_away(&plan, &all, Asked::put(&path, b"new"), &mut tally);
                        let directory = Asked::make(&path[..path.len() - 1]);
                        give_away(&plan, &all, directory, &mut tally);
                    }
                }
            }
        }
        tally.print();
        tally.demand(500, &["candidate", "no candidate"]);
    }
}

/// Tries every way to give these pages to what is asked and the target, whether they must be kept or not.
fn give_away(plan: &ImagePlan, pages: &[usize], asked: Asked, tally: &mut Tally) {
    let old = Contents::of(&Button::from(&plan.build())).expect("accepted");
    let others: PageSet = old.other_pages(asked.path).into_iter().collect();
    for way in ways(pages) {
        let Some(image) = placed(plan, asked, &way) else {
            continue;
        };
        let new = Contents::of(&Button::from(&image.build()));
        let Some(new) = new.filter(|new| is_candidate(&old, new, asked)) else {
            tally.add("no candidate");
            continue;
        };
        tally.add("candidate");
        let (target, _) = asked.split();
        let joined: PageSet = &new.directory_pages(target) - &old.directory_pages(target);
        assert!(joined.is_subset(&others), "pages that joined the target");
        let own = &new.entries[asked.path].pages;
        assert!(own.is_subset(&others), "its pages");
    }
}

/// Each way to have other stamps before the entries of a directory: one less, a byte changed, two exchanged, or those of an entry before another.
fn other_stamps(directory: &DirectoryPlan) -> Vec<(&'static str, Stamps)> {
    let mut all = Vec::new();
    for item in &directory.items {
        let own = directory.stamps_of(item);
        if own.is_empty() {
            continue;
        }
        let mut changed = own.to_vec();
        changed[0][4] ^= 1;
        all.push(("one stamp less", vec![(item, own[1..].to_vec())]));
        all.push(("a byte of a stamp changed", vec![(item, changed)]));
        if own.len() > 1 {
            let mut exchanged = own.to_vec();
            exchanged.swap(0, 1);
            all.push(("two stamps exchanged", vec![(item, exchanged)]));
        }
        let others = directory
            .items
            .iter()
            .filter(|other| other.key() != item.key());
        all.extend(others.map(|other| {
            let more = [directory.stamps_of(other), own].concat();
            (
                "stamps before another entry",
                vec![(item, Vec::new()), (other, more)],
            )
        }));
    }
    let with = |changes: Vec<(&Item, Vec<Vec<u8>>)>| {
        let mut stamps = directory.stamps.clone();
        stamps.extend(changes.into_iter().map(|(item, own)| (item.key(), own)));
        stamps
    };
    all.into_iter()
        .map(|(label, changes)| (label, with(changes)))
        .collect()
}

/// Demands of the image that what is asked leaves that it is a candidate, and of each like it but for stamps that it is none.
fn change_stamps(plan: &ImagePlan, asked: Asked, tally: &mut Tally) {
    let old = Contents::of(&Button::from(&plan.build())).expect("accepted");
    let edited = match asked.bytes {
        Some(bytes) => plan_with(plan, asked.path, bytes),
        None => plan_with_directory(plan, asked.path),
    };
    let Ok(put) = edited else {
        return;
    };
    let is_candidate = |plan: &ImagePlan| {
        let new = Contents::of(&Button::from(&plan.build())).expect("accepted");
        is_candidate(&old, &new, asked)
    };
    assert!(is_candidate(&put), "the image after it");
    tally.add("candidate");
    for (names, directory) in directories(&put) {
        for (label, stamps) in other_stamps(directory) {
            let mut other = put.clone();
            let changed = directory_mut(&mut other.root, &names).expect("a directory");
            changed.stamps = stamps;
            assert!(!is_candidate(&other), "{label}");
            tally.add(label);
        }
    }
}

/// Images that hold the file of a put and all entries, but other stamps before one of them, are no candidates.
#[test]
fn no_candidate_has_other_stamps() {
    let mut tally = Tally::default();
    let most = Most {
        root_pages: 1,
        sub_pages: 1,
        first_pages: 1,
        stamps: 2,
    };
    for tree in trees(9, 0, most) {
        if let Some(plan) = tree.plan(&[1, 2, 3, 4, 5, 6, 7, 8]) {
            for path in tree.paths(&plan) {
                change_stamps(&plan, Asked::put(&path, b"new"), &mut tally);
                change_stamps(&plan, Asked::make(&path[..path.len() - 1]), &mut tally);
            }
        }
    }
    tally.print();
    let labels = [
        "candidate",
        "one stamp less",
        "a byte of a stamp changed",
        "two stamps exchanged",
        "stamps before another entry",
    ];
    tally.demand(50, &labels);
}

/// A candidate for a new directory has it without entries: with a file in it, or with a file of its name in its place, an image is none.
#[test]
fn no_candidate_has_entries_in_the_new_directory() {
    let plan = ImagePlan {
        page_length: PAGE_LENGTH,
        ..Tree {
            page_count: 9,
            local_bitmap: true,
            large_pages: 0,
            root: vec![vec![1]],
            sub: None,
            in_sub: false,
            first_pages: 1,
        }
        .plan(&[1, 2, 3, 4, 5, 6, 7, 8])
        .expect("a plan")
    };
    let old = Contents::of(&Button::from(&plan.build())).expect("accepted");
    let asked = Asked::make(b"NEW ");
    let is_candidate = |plan: &ImagePlan| {
        let new = Contents::of(&Button::from(&plan.build())).expect("accepted");
        is_candidate(&old, &new, asked)
    };
    let made = plan_with_directory(&plan, b"NEW ").expect("made");
    assert!(is_candidate(&made));
    let with_file = plan_with(&made, b"NEW IN  \x01", b"").expect("put");
    assert!(!is_candidate(&with_file));
    let with_directory = plan_with_directory(&made, b"NEW IN  ").expect("made");
    assert!(!is_candidate(&with_directory));
    let file_of_its_name = plan_with(&plan, b"NEW \x01", b"").expect("put");
    assert!(!is_candidate(&file_of_its_name));
    let both = plan_with(&made, b"NEW \x01", b"").expect("put");
    assert!(is_candidate(&both), "a file of its name more is allowed");
    assert!(!is_candidate(&plan));
}

/// Every pair of sets without a common page is tried, and each once.
#[test]
fn every_way_is_tried_once() {
    for count in 0..=7 {
        let pages: Vec<usize> = (1..=count).collect();
        let all = ways(&pages);
        let pairs: BTreeSet<(Vec<usize>, Vec<usize>)> = all
            .iter()
            .map(|way| (way.file.clone(), way.joining.clone()))
            .collect();
        assert_eq!(all.len(), 3_usize.pow(count as u32));
        assert_eq!(pairs.len(), all.len());
        for (file, joining) in &pairs {
            assert!(file.iter().all(|page| !joining.contains(page)));
        }
    }
}
