//! Long seeded runs of format, put, delete, making and removing directories, and read against a model of what the button holds, with what must hold
//! after each call.
//!
//! Programs: the library and the second program. Each call is made by both; every answer and every lent byte is compared.
//! The archive is made by `tools/build`.

use std::collections::{BTreeMap, BTreeSet};

use common::generators::{stamp_count, stamped_plan};
use common::plans::may_be_local;
use common::{answer, chain_of, run_seeds, Button, Record, Seed, Tally, FREE};
use referee::builder::pages::Pages;
use referee::builder::plan::{Built, ChainOf};
use referee::builder::random::random_image;
use referee::rng::Rng;

/// What the model knows of a file.
#[derive(Clone, Debug, PartialEq, Eq)]
struct File {
    bytes: Vec<u8>,
    read_only: bool,
}

/// The pages of a directory in chain order, each with the bytes of its entries and stamps.
type Layout = Vec<(usize, Vec<Vec<u8>>)>;

/// A button and the model of what it holds.
struct World {
    button: Button,
    owners: Vec<Record>,
    files: BTreeMap<Vec<u8>, File>,
    /// The names that lead to each directory; the root's are empty.
    directories: BTreeSet<Vec<u8>>,
    /// Those of them that are hidden.
    hidden: BTreeSet<Vec<u8>>,
    /// The edits done that have to do with stamps.
    stamped: Tally,
}

/// A put that is expected to be done: where the entry and the file go.
struct Expected {
    layout: Layout,
    /// Whether the directory has a page more.
    grown: bool,
    file_pages: Vec<usize>,
}

impl World {
    /// A freshly formatted button on an image of random bytes.
    fn formatted(page_length: u32, page_count: u32, local: bool, rng: &mut Rng) -> World {
        let mut button = Button::zeros(page_length, page_count);
        button.image = rng.bytes(button.image.len());
        let (done, owners) = button.format(local);
        assert_eq!(done, answer(0, 0));
        World {
            button,
            owners,
            files: BTreeMap::new(),
            directories: BTreeSet::from([Vec::new()]),
            hidden: BTreeSet::new(),
            stamped: Tally::default(),
        }
    }

    /// A generated image.
    fn generated(built: &Built) -> World {
        let button = Button::from(built);
        let mut files = BTreeMap::new();
        let mut directories = BTreeSet::from([Vec::new()]);
        let mut hidden = BTreeSet::new();
        for entry in &built.entries {
            if built.chains[entry.chain].of == ChainOf::Directory {
                directories.insert(entry.path.clone());
                if entry.listing.attribute == 1 {
                    hidden.insert(entry.path.clone());
                }
                continue;
            }
            let file = File {
                bytes: entry.bytes.clone(),
                read_only: entry.listing.attribute == 1,
            };
            files.insert(entry.path.clone(), file);
        }
        World {
            owners: button.check().1,
            button,
            files,
            directories,
            hidden,
            stamped: Tally::default(),
        }
    }

    /// The chain of pages from a start page, by the pointers in the image.
    fn chain(&self, start: usize) -> Vec<usize> {
        let pages = self.button.pages();
        let mut chain = vec![start];
        let mut next = pages.pointer(start);
        while next != 0 {
            chain.push(next);
            assert!(chain.len() <= pages.geometry.page_count());
            next = pages.pointer(next);
        }
        chain
    }

    /// The layout of the directory that starts at a page.
    fn layout(&self, start: usize) -> Layout {
        let pages = self.button.pages();
        let entry_length = pages.geometry.entry_length();
        let mut layout = Vec::new();
        for (place, page) in self.chain(start).into_iter().enumerate() {
            let mut body = pages.body(page);
            if place == 0 {
                body.drain(..pages.geometry.control_length());
            }
            let entries = body.chunks(entry_length).map(<[u8]>::to_vec).collect();
            layout.push((page, entries));
        }
        layout
    }

    /// The start page of a directory, by the entries in the image; its names are known to be there.
    fn directory_start(&self, names: &[u8]) -> usize {
        let geometry = self.button.pages().geometry;
        let mut start = 0;
        for name in names.chunks(4) {
            let layout = self.layout(start);
            let entry = layout
                .iter()
                .flat_map(|(_, entries)| entries)
                .find(|entry| entry[..4] == *name && entry[4] & 127 == 127)
                .expect("the directory is there");
            start = geometry.number_at(&entry[5..]);
        }
        start
    }

    /// The pages of a file, by the entries and pointers in the image.
    fn file_pages(&self, path: &[u8]) -> Option<Vec<usize>> {
        let (names, name) = path.split_at(path.len() - 5);
        let layout = self.layout(self.directory_start(names));
        let entry = layout
            .iter()
            .flat_map(|(_, entries)| entries)
            .find(|entry| is_file(entry, name))?;
        let geometry = self.button.pages().geometry;
        Some(self.chain(geometry.number_at(&entry[5..])))
    }

    /// Whether the path's directories are there.
    fn has_directory(&self, path: &[u8]) -> bool {
        self.directories.contains(&path[..path.len() - 5])
    }

    /// Whether one of the path's directories is hidden.
    fn is_hidden(&self, path: &[u8]) -> bool {
        let ends = (4..path.len()).step_by(4);
        ends.into_iter()
            .any(|end| self.hidden.contains(&path[..end]))
    }

    /// Where a put of `length` bytes must go, counted from the owner table; none if there is no room.
    fn expect_put(&self, path: &[u8], length: usize) -> Option<Expected> {
        let geometry = self.button.pages().geometry;
        let (names, name) = path.split_at(path.len() - 5);
        let mut layout = self.layout(self.directory_start(names));
        let pages = layout.len();
        let old = self.file_pages(path).unwrap_or_default();
        let is_free = |page: &usize| self.owners[*page] == FREE || old.contains(page);
        let mut free = (0..self.owners.len()).filter(is_free);
        let slot = if old.is_empty() {
            let first = geometry.first_page_entries();
            let later = geometry.continuation_entries();
            let capacity = |place| if place == 0 { first } else { later };
            let space = (0..layout.len()).find(|&place| layout[place].1.len() < capacity(place));
            if space.is_none() {
                layout.push((free.next()?, Vec::new()));
            }
            let place = space.unwrap_or(layout.len() - 1);
            layout[place].1.push(Vec::new());
            (place, layout[place].1.len() - 1)
        } else {
            find_entry(&layout, name)?
        };
        let needed = length.div_ceil(geometry.max_data()).max(1);
        let file_pages: Vec<usize> = free.take(needed).collect();
        if file_pages.len() < needed {
            return None;
        }
        let mut entry = name.to_vec();
        entry.extend(geometry.number_bytes(file_pages[0]));
        entry.extend(geometry.number_bytes(needed));
        layout[slot.0].1[slot.1] = entry;
        Some(Expected {
            grown: layout.len() > pages,
            layout,
            file_pages,
        })
    }

    /// The pages that hold the bitmap: page 0 or the bitmap file's.
    fn bitmap_pages(&self) -> BTreeSet<usize> {
        let file = BTreeSet::from_iter(chain_of(&self.owners, 2));
        if file.is_empty() {
            BTreeSet::from([0])
        } else {
            file
        }
    }

    /// A bitmap file keeps its packets' lengths and pointers.
    fn bitmap_file_keeps_lengths(&self, before: &Button) {
        let (old, new) = (before.pages(), self.button.pages());
        for page in chain_of(&self.owners, 2) {
            assert_eq!(old.body(page).len(), new.body(page).len());
            assert_eq!(old.pointer(page), new.pointer(page));
        }
    }

    /// Puts a file and demands what must hold afterwards.
    fn put(&mut self, path: &[u8], bytes: &[u8]) -> u32 {
        let number = match self.files.get(path) {
            _ if !self.has_directory(path) => 15,
            _ if self.is_hidden(path) => 22,
            Some(file) if file.read_only => 16,
            _ => 17,
        };
        let expected = if number == 17 {
            self.expect_put(path, bytes.len())
        } else {
            None
        };
        let before = self.button.clone();
        let (done, owners) = self.button.put(path, bytes);
        self.owners = owners;
        let Some(expected) = expected else {
            assert_eq!(done, answer(number, 0));
            return done.number;
        };
        assert_eq!(done, answer(0, 0));
        self.files.insert(
            path.to_vec(),
            File {
                bytes: bytes.to_vec(),
                read_only: false,
            },
        );
        self.placed(&before, path, bytes, &expected);
        self.count_put(path, &expected.layout, expected.grown);
        0
    }

    /// Counts a put that has to do with stamps.
    fn count_put(&mut self, path: &[u8], layout: &Layout, grown: bool) {
        let stamps = stamps_of(layout, &path[path.len() - 5..]);
        let mut slots = layout.iter().flat_map(|(_, slots)| slots);
        let has_stamps = slots.any(|slot| is_stamp(slot));
        if stamps > 0 {
            self.stamped.add("file with stamps replaced");
        } else if has_stamps && grown {
            self.stamped.add("directory full because of stamps grown");
        } else if has_stamps {
            self.stamped.add("file beside stamps put");
        }
    }

    /// After a put: entry and file stand where they must, and nothing else has changed.
    fn placed(&self, before: &Button, path: &[u8], bytes: &[u8], expected: &Expected) {
        let names = &path[..path.len() - 5];
        let start = self.directory_start(names);
        assert_eq!(self.layout(start), expected.layout);
        let chain = self.file_pages(path).unwrap_or_default();
        assert_eq!(chain, expected.file_pages);
        let pages = self.button.pages();
        let most = pages.geometry.max_data();
        for (place, &page) in chain.iter().enumerate() {
            let part = bytes.chunks(most).nth(place).unwrap_or(&[]);
            assert_eq!(pages.body(page), part);
        }
        let mut written = self.bitmap_pages();
        written.extend(&chain);
        written.extend(expected.layout.iter().map(|(page, _)| *page));
        only_packets_changed(before, &self.button, &written);
        self.bitmap_file_keeps_lengths(before);
    }

    /// Deletes a file and demands what must hold afterwards.
    fn delete(&mut self, path: &[u8]) -> u32 {
        let number = match self.files.get(path) {
            _ if !self.has_directory(path) => 15,
            None => 15,
            Some(_) if self.is_hidden(path) => 22,
            Some(file) if file.read_only => 16,
            Some(_) => 0,
        };
        let before = self.button.clone();
        if number != 0 {
            assert_eq!(self.button.delete(path).0, answer(number, 0));
            return number;
        }
        let (names, name) = path.split_at(path.len() - 5);
        let start = self.directory_start(names);
        let mut layout = self.layout(start);
        let (place, slot) = find_entry(&layout, name).expect("the entry is there");
        let stamps = stamps_of(&layout, name);
        layout[place].1.drain(slot - stamps..=slot);
        let words = stamp_count(stamps);
        self.stamped.add(format!("file with {words} deleted"));
        let freed = self.file_pages(path).unwrap_or_default();
        let (done, owners) = self.button.delete(path);
        assert_eq!(done, answer(0, 0));
        self.owners = owners;
        self.files.remove(path);
        assert_eq!(self.layout(start), layout);
        assert!(freed.iter().all(|&page| self.owners[page] == FREE));
        let mut written = self.bitmap_pages();
        written.insert(layout[place].0);
        only_packets_changed(&before, &self.button, &written);
        self.bitmap_file_keeps_lengths(&before);
        0
    }

    /// Where a directory must go: its entry and its page as those of a new file without bytes, but for the entry's number of pages, which is 0.
    fn expect_make(&self, path: &[u8]) -> Option<Expected> {
        let key = [path, &[127]].concat();
        let mut expected = self.expect_put(&key, 0)?;
        let (place, slot) = find_entry(&expected.layout, &key[key.len() - 5..])?;
        let number_length = self.button.pages().geometry.number_length();
        let entry = &mut expected.layout[place].1[slot];
        let length = entry.len();
        entry[length - number_length..].fill(0);
        Some(expected)
    }

    /// Makes a directory and demands what must hold afterwards.
    fn make_directory(&mut self, path: &[u8]) -> u32 {
        let names = &path[..path.len() - 4];
        let number = match self.directories.contains(names) {
            false => 15,
            true if self.is_hidden(path) => 22,
            true if self.directories.contains(path) => 21,
            true => 17,
        };
        let expected = match number {
            17 => self.expect_make(path),
            _ => None,
        };
        let before = self.button.clone();
        let (done, owners) = self.button.make_directory(path);
        self.owners = owners;
        let Some(expected) = expected else {
            assert_eq!(done, answer(number, 0));
            return done.number;
        };
        assert_eq!(done, answer(0, 0));
        self.directories.insert(path.to_vec());
        let start = self.directory_start(names);
        assert_eq!(self.layout(start), expected.layout);
        let chain = self.chain(self.directory_start(path));
        assert_eq!(chain, expected.file_pages);
        let pages = self.button.pages();
        let parent = match names.len() {
            0 => String::from("ROOT"),
            length => String::from_utf8(names[length - 4..].to_vec()).expect("ASCII"),
        };
        assert_eq!(pages.body(chain[0]), pages.sub_control(&parent, start));
        let mut written = self.bitmap_pages();
        written.extend(&chain);
        written.extend(expected.layout.iter().map(|(page, _)| *page));
        only_packets_changed(&before, &self.button, &written);
        self.bitmap_file_keeps_lengths(&before);
        0
    }

    /// Removes a directory and demands what must hold afterwards.
    fn remove_directory(&mut self, path: &[u8]) -> u32 {
        let is_below = |other: &Vec<u8>| other.len() > path.len() + 3 && other.starts_with(path);
        let has_entries = self.files.keys().any(is_below) || self.directories.iter().any(is_below);
        let number = match self.directories.contains(path) {
            false => 15,
            true if self.is_hidden(path) || self.hidden.contains(path) => 22,
            true if has_entries => 20,
            true => 0,
        };
        let before = self.button.clone();
        if number != 0 {
            assert_eq!(self.button.remove_directory(path).0, answer(number, 0));
            return number;
        }
        let (names, name) = path.split_at(path.len() - 4);
        let key = [name, &[127]].concat();
        let start = self.directory_start(names);
        let mut layout = self.layout(start);
        let (place, slot) = find_entry(&layout, &key).expect("the entry is there");
        let stamps = stamps_of(&layout, &key);
        layout[place].1.drain(slot - stamps..=slot);
        let freed = self.chain(self.directory_start(path));
        if freed.len() > 1 {
            self.stamped.add("directory of several pages removed");
        }
        if stamps > 0 {
            self.stamped.add("directory with stamps removed");
        }
        let (done, owners) = self.button.remove_directory(path);
        assert_eq!(done, answer(0, 0));
        self.owners = owners;
        self.directories.remove(path);
        assert_eq!(self.layout(start), layout);
        assert!(freed.iter().all(|&page| self.owners[page] == FREE));
        let mut written = self.bitmap_pages();
        written.insert(layout[place].0);
        only_packets_changed(&before, &self.button, &written);
        self.bitmap_file_keeps_lengths(&before);
        0
    }

    /// Reads a file, or finds it absent, with an output that may be too short.
    fn read(&self, path: &[u8], out_length: usize) {
        let (length, owners) = {
            let mut out = vec![0x6B; out_length];
            let answer = self.button.read_into(path, &mut out);
            if answer.0.number == 0 {
                out.truncate(answer.0.length as usize);
                assert_eq!(Some(&out), self.files.get(path).map(|file| &file.bytes));
            }
            answer
        };
        let expected = match self.files.get(path) {
            None => 15,
            Some(file) if file.bytes.len() > out_length => 18,
            Some(_) => 0,
        };
        assert_eq!((length.number, length.page), (expected, 0));
        assert_eq!(owners, self.owners);
    }

    /// Calls with malformed paths are 14 and change nothing.
    fn malformed(&mut self, path: &[u8]) {
        assert_eq!(self.button.put(path, b"new").0, answer(14, 0));
        assert_eq!(self.button.delete(path).0, answer(14, 0));
        assert_eq!(self.button.read(path).0, 14);
    }

    /// The model agrees with check, list and read, and the table with the counts.
    fn verify(&self) {
        let (totals, owners) = self.button.check();
        assert_eq!(totals.number, 0);
        assert_eq!(owners, self.owners);
        assert_eq!(totals.files as usize, self.files.len());
        assert_eq!(totals.directories as usize, self.directories.len() - 1);
        let used = owners.iter().filter(|&&record| record != FREE).count();
        assert_eq!(totals.used as usize, used);
        assert_eq!(chain_of(&owners, 1), self.chain(0), "the root's");
        let mut names: Vec<u8> = Vec::new();
        let mut seen = BTreeSet::new();
        for (position, listing) in self.button.list_all().into_iter().enumerate() {
            names.truncate(4 * listing.level as usize);
            let mut path = names.clone();
            path.extend(listing.name.to_le_bytes());
            let owner = 3 + position as u16;
            let chain = self.chain(listing.start as usize);
            assert_eq!(chain_of(&owners, owner), chain, "by the pointers");
            if listing.extension == 127 {
                assert!(self.directories.contains(&path));
                assert_eq!((listing.pages, listing.length), (0, 0));
                names = path;
                continue;
            }
            path.push(listing.extension as u8);
            let file = self.files.get(&path).expect("the model has the file");
            assert_eq!(listing.attribute == 1, file.read_only);
            assert_eq!(listing.length as usize, file.bytes.len());
            assert_eq!(listing.pages as usize, chain.len());
            assert_eq!(self.button.read(&path), (0, file.bytes.clone()));
            assert!(seen.insert(path));
        }
        assert_eq!(seen.len(), self.files.len());
    }
}

/// Whether an entry is the file of this name and extension number (five bytes).
fn is_file(entry: &[u8], name: &[u8]) -> bool {
    entry[..4] == name[..4] && entry[4] & 127 == name[4]
}

/// The place of a file's entry in a directory: page and entry in it, both counted from 0.
fn find_entry(layout: &Layout, name: &[u8]) -> Option<(usize, usize)> {
    for (place, (_, entries)) in layout.iter().enumerate() {
        if let Some(slot) = entries.iter().position(|entry| is_file(entry, name)) {
            return Some((place, slot));
        }
    }
    None
}

/// Whether a slot of a directory page is a stamp's: its first byte is above 127.
fn is_stamp(slot: &[u8]) -> bool {
    slot[0] > 127
}

/// The number of stamps directly before a file's entry.
fn stamps_of(layout: &Layout, name: &[u8]) -> usize {
    let Some((place, slot)) = find_entry(layout, name) else {
        return 0;
    };
    let before = layout[place].1[..slot].iter().rev();
    before.take_while(|slot| is_stamp(slot)).count()
}

/// Only the packets of these pages may differ; every other byte of the image stays.
fn only_packets_changed(before: &Button, after: &Button, written: &BTreeSet<usize>) {
    for page in 0..before.page_count as usize {
        let (old, new) = (before.page(page), after.page(page));
        let packet = if written.contains(&page) {
            3 + usize::from(new[0])
        } else {
            0
        };
        assert_eq!(old[packet..], new[packet..], "page {page}");
    }
}

/// A length in bytes that is often near the limits of packets and sometimes too long for the button.
fn random_length(pages: &Pages, rng: &mut Rng) -> usize {
    let most = pages.geometry.max_data();
    let count = pages.geometry.page_count();
    match rng.below(10) {
        0 => 0,
        1 => most,
        2 => most + 1,
        3 => 2 * most,
        4 => rng.below(most * count + 2),
        5 => rng.below(most * count / 4 + 2),
        _ => rng.below(3 * most),
    }
}

/// A path of a file that is there, or of a new one in a directory that is there or missing.
fn random_path(world: &World, rng: &mut Rng) -> Vec<u8> {
    let existing: Vec<&Vec<u8>> = world.files.keys().collect();
    if rng.chance(40) {
        if let Some(path) = rng.pick(&existing) {
            return path.to_vec();
        }
    }
    let directories: Vec<&Vec<u8>> = world.directories.iter().collect();
    let mut path = rng
        .pick(&directories)
        .map(|names| names.to_vec())
        .unwrap_or_default();
    if rng.chance(5) && path.len() < 32 {
        path.extend(*b"NONE");
    }
    path.extend([
        b'A' + rng.below(6) as u8,
        b'0' + rng.below(8) as u8,
        b' ',
        b' ',
    ]);
    path.push([0, 1, 99][rng.below(3)]);
    path
}

/// A path of a directory that is there, or of a new one in a directory that is there or missing; it has one to eight names.
fn random_directory(world: &World, rng: &mut Rng) -> Vec<u8> {
    let mut directories: Vec<&Vec<u8>> = world.directories.iter().collect();
    directories.retain(|path| !path.is_empty());
    if rng.chance(50) {
        if let Some(path) = rng.pick(&directories) {
            return path.to_vec();
        }
    }
    let parent = rng.pick(&directories).filter(|path| path.len() <= 24);
    let mut path = match rng.chance(60) {
        true => parent.map(|path| path.to_vec()).unwrap_or_default(),
        false => Vec::new(),
    };
    if rng.chance(5) {
        path.extend(*b"NONE");
    }
    // Files have such names too.
    path.extend([b'A' + rng.below(6) as u8, b'0', b' ', b' ']);
    path
}

/// A malformed path made from a well-formed one.
fn malformed_path(world: &World, rng: &mut Rng) -> Vec<u8> {
    let mut path = random_path(world, rng);
    match rng.below(4) {
        0 => {
            path.pop();
        }
        1 => path.insert(0, b'A'),
        2 => {
            let last = path.len() - 1;
            path[last] = rng.between(100, 255) as u8;
        }
        _ => {
            let place = rng.below((path.len() - 1) / 4) * 4;
            path[place] = b' ';
        }
    }
    path
}

/// One random call.
fn step(world: &mut World, rng: &mut Rng) -> u32 {
    let path = random_path(world, rng);
    match rng.below(118) {
        100..=109 => {
            let path = random_directory(world, rng);
            world.make_directory(&path)
        }
        110..=117 => {
            let path = random_directory(world, rng);
            world.remove_directory(&path)
        }
        0..=54 => {
            let length = random_length(&world.button.pages(), rng);
            let bytes = rng.bytes(length);
            world.put(&path, &bytes)
        }
        55..=79 => world.delete(&path),
        80..=93 => {
            let length = world.files.get(&path).map_or(0, |file| file.bytes.len());
            let out_length = (length + rng.below(6)).saturating_sub(rng.below(4));
            world.read(&path, out_length);
            0
        }
        _ => {
            let malformed = malformed_path(world, rng);
            world.malformed(&malformed);
            14
        }
    }
}

/// A run of random calls; the numbers of their answers are counted.
fn run(world: &mut World, steps: usize, rng: &mut Rng, counts: &mut [u32; 23]) {
    world.verify();
    for _ in 0..steps {
        let number = step(world, rng);
        counts[number as usize] += 1;
        if world.files.len() <= 10 || rng.chance(6) {
            world.verify();
        }
    }
    world.verify();
}

/// Puts one-page files until there is no room: then no page is free, or one and the directory has no space.
fn fill_up(world: &mut World, rng: &mut Rng) {
    let mut number = 0;
    for count in 0.. {
        let name = format!("{count:04}");
        let mut path = name.into_bytes();
        path.push(7);
        let length = rng.below(world.button.page_length as usize - 5);
        let bytes = rng.bytes(length);
        number = world.put(&path, &bytes);
        if number != 0 {
            break;
        }
    }
    assert_eq!(number, 17);
    let free = world
        .owners
        .iter()
        .filter(|&&record| record == FREE)
        .count();
    assert!(free <= 1);
    world.verify();
}

#[test]
fn runs_on_formatted_buttons_agree_with_the_model() {
    let mut counts = [0; 23];
    let lengths = [32, 33, 37, 39, 48, 64, 127, 128, 255, 256];
    let sizes = [
        2, 3, 4, 5, 8, 16, 30, 31, 32, 33, 64, 100, 255, 256, 257, 300,
    ];
    let mut seed = 10_000;
    for page_length in lengths {
        for page_count in sizes {
            for local in [true, false] {
                if local && !may_be_local(page_count) {
                    continue;
                }
                seed += 1;
                let _seed = Seed(seed);
                let mut rng = Rng::new(seed);
                let mut world = World::formatted(page_length, page_count, local, &mut rng);
                run(&mut world, 120, &mut rng, &mut counts);
                if page_length <= 48 || page_count <= 64 {
                    fill_up(&mut world, &mut rng);
                }
            }
        }
    }
    for number in [0, 14, 15, 17, 20, 21] {
        assert!(counts[number] > 100, "number {number}: {}", counts[number]);
    }
}

#[test]
fn runs_on_generated_buttons_agree_with_the_model() {
    let mut counts = [0; 23];
    for seed in 20_000..20_400 {
        let _seed = Seed(seed);
        let mut rng = Rng::new(seed);
        let page_length = if rng.chance(60) {
            rng.between(32, 64)
        } else {
            rng.between(65, 256)
        };
        let most = [12, 32, 80, 256, 400][rng.below(5)];
        let page_count = rng.between(2, most);
        let built = random_image(page_length as u32, page_count as u32, &mut rng);
        let mut world = World::generated(&built);
        run(&mut world, 40, &mut rng, &mut counts);
    }
    for number in [0, 14, 15, 16, 17, 20, 21, 22] {
        assert!(counts[number] > 100, "number {number}: {}", counts[number]);
    }
}

/// Runs that begin with images of many stamps, which edits take away and none adds.
#[test]
fn runs_on_buttons_with_stamps_agree_with_the_model() {
    let mut counts = [0; 23];
    let mut stamped = Tally::default();
    run_seeds(25_000..25_300, |_, rng| {
        let mut world = World::generated(&stamped_plan(rng).build());
        run(&mut world, 40, rng, &mut counts);
        stamped.add_all(&world.stamped);
    });
    stamped.print();
    for number in [0, 14, 15, 16, 17, 20, 21, 22] {
        assert!(counts[number] > 50, "number {number}: {}", counts[number]);
    }
    stamped.demand(3, &["directory with stamps removed"]);
    let labels = [
        "file with stamps replaced",
        "file beside stamps put",
        "directory full because of stamps grown",
        "file with no stamps deleted",
        "file with one stamp deleted",
        "file with two stamps deleted",
        "file with three stamps deleted",
    ];
    stamped.demand(40, &labels);
}

/// One long run on each of some buttons.
#[test]
fn long_runs_agree_with_the_model() {
    let buttons = [
        (32, 16, true),
        (32, 31, true),
        (32, 32, true),
        (32, 16, false),
        (40, 60, false),
        (32, 270, false),
        (128, 24, true),
    ];
    for (place, (page_length, page_count, local)) in buttons.into_iter().enumerate() {
        let seed = 30_000 + place as u64;
        let _seed = Seed(seed);
        let mut rng = Rng::new(seed);
        let mut counts = [0; 23];
        let mut world = World::formatted(page_length, page_count, local, &mut rng);
        run(&mut world, 2_500, &mut rng, &mut counts);
        assert!(counts[0] > 300, "done {}", counts[0]);
    }
}

/// Format over a used button gives an empty one, and the files are gone.
#[test]
fn format_of_a_used_button_leaves_an_empty_one() {
    for seed in 40_000..40_060 {
        let _seed = Seed(seed);
        let mut rng = Rng::new(seed);
        let page_count = rng.between(2, 300) as u32;
        let page_length = rng.between(32, 256) as u32;
        let built = random_image(page_length, page_count, &mut rng);
        let mut world = World::generated(&built);
        let before = world.button.clone();
        let local = rng.chance(50);
        let (done, owners) = world.button.format(local);
        if local && !may_be_local(page_count) {
            assert_eq!(done, answer(4, 0));
            assert_eq!(owners, world.owners);
            continue;
        }
        assert_eq!(done, answer(0, 0));
        let written: BTreeSet<usize> = (0..owners.len()).filter(|&p| owners[p] != FREE).collect();
        only_packets_changed(&before, &world.button, &written);
        world.owners = owners;
        world.files.clear();
        world.directories = BTreeSet::from([Vec::new()]);
        world.verify();
        run(&mut world, 20, &mut rng, &mut [0; 23]);
    }
}
