//! Random descriptions of images, driven by a seeded generator.

use std::collections::HashSet;

use super::pages::Pages;
use super::plan::{BitmapPlan, Built, Chain, DirectoryPlan, FilePlan, Fill, ImagePlan, Item};
use crate::geometry::Geometry;
use crate::rng::Rng;

/// The bytes that a name may have.
const NAME_BYTES: &[u8] = b"ABCDEFGHIJKLMNOPQRSTUVWXYZ0123456789!#$%&'@^_`{}~";

/// What a random image looks like.
#[derive(Clone, Copy, Debug)]
pub struct Shape {
    pub local_bitmap: bool,
    /// Whether chains lie on pages in random order; otherwise on rising pages as they are needed.
    pub scattered: bool,
    /// The number of pages that stay free at least, as far as the bitmap file leaves them.
    pub free_pages: usize,
    /// The limits of the number of entries in a directory.
    pub least_entries: usize,
    pub most_entries: usize,
    /// The greatest number of pages of a file.
    pub most_file_pages: usize,
    /// The part of entries that are directories.
    pub directory_percent: usize,
    /// Whether the first entry of every directory is a directory, down to level eight.
    pub deep: bool,
    /// The part of packets that are partly filled or empty although more follows.
    pub odd_packet_percent: usize,
    /// The part of entries that have stamps: one to three, or as many as there can be.
    pub stamp_percent: usize,
    /// The part of directories that are hidden.
    pub hidden_percent: usize,
    pub fill: Fill,
}

impl Shape {
    /// A random shape.
    pub fn random(geometry: &Geometry, rng: &mut Rng) -> Shape {
        let count = geometry.page_count();
        let free = [0, 1, 3, count / 4, count / 2, count];
        let most_entries = [3, 8, 40, count];
        let most_file_pages = [1, 3, 10, count / 3 + 1];
        let fill = [
            Fill::Byte(0),
            Fill::Byte(0xFF),
            Fill::Random(rng.next_u64()),
            Fill::Random(rng.next_u64()),
        ];
        Shape {
            local_bitmap: geometry.allows_local_bitmap() && rng.chance(60),
            scattered: rng.chance(70),
            free_pages: free[rng.below(free.len())],
            least_entries: rng.below(4),
            most_entries: most_entries[rng.below(most_entries.len())],
            most_file_pages: most_file_pages[rng.below(most_file_pages.len())],
            directory_percent: [0, 15, 40][rng.below(3)],
            deep: rng.chance(25),
            odd_packet_percent: [0, 15, 60][rng.below(3)],
            stamp_percent: [0, 0, 20, 70][rng.below(4)],
            hidden_percent: [0, 0, 8, 30][rng.below(4)],
            fill: fill[rng.below(fill.len())],
        }
    }
}

/// The pages that are still to be given out, and the random choices.
struct Generator<'a> {
    geometry: Geometry,
    shape: Shape,
    rng: &'a mut Rng,
    pool: Vec<usize>,
}

/// A random image of a random shape.
pub fn random_image(page_length: u32, page_count: u32, rng: &mut Rng) -> Built {
    let geometry = Geometry::new(page_length, page_count).expect("P and N within their limits");
    let shape = Shape::random(&geometry, rng);
    random_plan(page_length, page_count, shape, rng).build()
}

/// A random plan of the given shape.
pub fn random_plan(page_length: u32, page_count: u32, shape: Shape, rng: &mut Rng) -> ImagePlan {
    let geometry = Geometry::new(page_length, page_count).expect("P and N within their limits");
    let mut pool: Vec<usize> = (1..geometry.page_count()).rev().collect();
    if shape.scattered {
        rng.shuffle(&mut pool);
    }
    let mut generator = Generator {
        geometry,
        shape,
        rng,
        pool,
    };
    let bitmap = generator.bitmap();
    let left = generator.pool.len().saturating_sub(shape.free_pages);
    generator.pool = generator.pool.split_off(generator.pool.len() - left);
    let root = generator.directory(0, 0);
    ImagePlan {
        page_length,
        page_count,
        bitmap,
        root,
        fill: shape.fill,
    }
}

/// A random name of one to four bytes, filled with blanks.
pub fn random_name(rng: &mut Rng) -> [u8; 4] {
    if rng.chance(3) {
        return *b"ROOT";
    }
    let mut name = *b"    ";
    let length = if rng.chance(70) { 4 } else { rng.between(1, 4) };
    for byte in name.iter_mut().take(length) {
        *byte = NAME_BYTES[rng.below(NAME_BYTES.len())];
    }
    name
}

/// A random stamp, an entry's bytes with the first above 127: any bytes, those of erased memory, or such that look like a name, an entry or a
/// directory's marker.
pub fn random_stamp(geometry: &Geometry, rng: &mut Rng) -> Vec<u8> {
    let mut stamp = rng.bytes(geometry.entry_length());
    match rng.below(6) {
        0 => stamp[..4].copy_from_slice(&random_name(rng)),
        1 => {
            stamp[..4].copy_from_slice(&random_name(rng));
            stamp[4] = [1, 12, 99, 127, 255][rng.below(5)];
            let start = rng.below(geometry.page_count());
            let numbers = [geometry.number_bytes(start), geometry.number_bytes(1)];
            stamp[5..].copy_from_slice(&numbers.concat());
        }
        2 => {
            stamp.fill(0);
            stamp[0] = geometry.marker();
        }
        3 => stamp.fill(0xFF),
        _ => {}
    }
    stamp[0] |= 0x80;
    stamp
}

/// An image in which every page has a sound packet, with random entries, pointers and counts.
/// Most such images have some fault that lies deeper than a broken packet; the bitmap is all zeros.
pub fn random_packets(page_length: u32, page_count: u32, rng: &mut Rng) -> Vec<u8> {
    let mut pages = Pages::new(page_length, page_count);
    for page in 1..pages.geometry.page_count() {
        let body = match rng.below(4) {
            0 => {
                let parent = ["ROOT", "ROOT", "A", "B"][rng.below(4)];
                let start = rng.below(2) * rng.below(pages.geometry.page_count());
                let control = pages.sub_control(parent, start);
                random_entries(&pages, control, rng)
            }
            1 => random_entries(&pages, Vec::new(), rng),
            _ => {
                let length = rng.below(4);
                rng.bytes(length)
            }
        };
        let pointer = random_pointer(&pages, rng);
        pages.packet(page, &body, pointer);
    }
    let control = if pages.geometry.allows_local_bitmap() && rng.chance(70) {
        pages.local_control(&[])
    } else {
        zero_bitmap_file(&mut pages, rng)
    };
    let body = random_entries(&pages, control, rng);
    let pointer = random_pointer(&pages, rng);
    pages.packet(0, &body, pointer);
    pages.image
}

/// A page number that is nearly always below N.
fn random_number(pages: &Pages, rng: &mut Rng) -> usize {
    let past = usize::from(rng.chance(2));
    rng.below(pages.geometry.page_count() + past)
}

/// A pointer that ends the chain or leads anywhere.
fn random_pointer(pages: &Pages, rng: &mut Rng) -> usize {
    if rng.chance(70) {
        0
    } else {
        random_number(pages, rng)
    }
}

/// Writes a bitmap file of zeros from page 1 upward and gives the control field; sometimes it places another.
fn zero_bitmap_file(pages: &mut Pages, rng: &mut Rng) -> Vec<u8> {
    if rng.chance(10) {
        let start = random_number(pages, rng);
        return pages.file_control(start, rng.between(1, 2));
    }
    let total = pages.geometry.bitmap_file_length();
    let most = pages.geometry.max_data();
    let count = total.div_ceil(most);
    for place in 0..count {
        let length = most.min(total - place * most);
        let pointer = if place + 1 == count { 0 } else { place + 2 };
        pages.packet(1 + place, &vec![0; length], pointer);
    }
    pages.file_control(1, count)
}

/// Some entries after a control field.
fn random_entries(pages: &Pages, control: Vec<u8>, rng: &mut Rng) -> Vec<u8> {
    let space = (pages.geometry.max_data() - control.len()) / pages.geometry.entry_length();
    let mut body = control;
    for _ in 0..rng.below(space.min(4) + 1) {
        if rng.chance(8) {
            body.extend(random_stamp(&pages.geometry, rng));
            continue;
        }
        let name = ["A", "B", "C", "D", "E"][rng.below(5)];
        let directory = rng.chance(40);
        let extension = if directory { 127 } else { rng.below(3) as u8 };
        let attribute = u8::from(rng.chance(20)) << 7;
        let count = if directory { 0 } else { rng.between(1, 2) };
        let start = random_number(pages, rng);
        body.extend(pages.entry(name, extension | attribute, start, count));
    }
    body
}

impl Generator<'_> {
    /// The bitmap's place; a bitmap file may have more packets than it needs.
    fn bitmap(&mut self) -> BitmapPlan {
        if self.shape.local_bitmap {
            return BitmapPlan::Local;
        }
        let total = self.geometry.bitmap_file_length();
        let least = total.div_ceil(self.geometry.max_data());
        let more = if self.rng.chance(self.shape.odd_packet_percent) {
            self.rng.between(0, 3)
        } else {
            0
        };
        let count = (least + more).min(self.pool.len());
        let pages = self.take(count);
        if more == 0 {
            return BitmapPlan::File(Chain::full(&pages, total, self.geometry.max_data()));
        }
        let lengths = self.split(total, count);
        BitmapPlan::File(Chain { pages, lengths })
    }

    /// Takes pages from the pool.
    fn take(&mut self, count: usize) -> Vec<usize> {
        (0..count).filter_map(|_| self.pool.pop()).collect()
    }

    /// Splits a number of bytes over the packets of a chain at random.
    fn split(&mut self, total: usize, count: usize) -> Vec<usize> {
        let most = self.geometry.max_data();
        let mut rest = total;
        let mut lengths = Vec::new();
        for place in 0..count {
            let after = (count - place - 1) * most;
            let least = rest.saturating_sub(after);
            let length = self.rng.between(least, rest.min(most));
            lengths.push(length);
            rest -= length;
        }
        lengths
    }

    /// A directory on a first page, with entries as long as there are pages.
    fn directory(&mut self, first: usize, level: u32) -> DirectoryPlan {
        let mut plan = DirectoryPlan {
            pages: vec![first],
            counts: vec![0],
            ..DirectoryPlan::default()
        };
        let mut names = HashSet::new();
        let wanted = self
            .rng
            .between(self.shape.least_entries, self.shape.most_entries);
        while plan.items.len() < wanted {
            let stamps = self.stamps(&plan.items);
            if !self.make_space(&mut plan, 1 + stamps.len()) {
                break;
            }
            let Some(item) = self.item(level, plan.items.is_empty(), &mut names) else {
                break;
            };
            if !stamps.is_empty() {
                plan.stamps.insert(item.key(), stamps);
            }
            plan.items.push(item);
            if let Some(count) = plan.counts.last_mut() {
                *count += 1;
            }
        }
        if self.rng.chance(self.shape.odd_packet_percent / 4) {
            self.append_page(&mut plan);
        }
        plan
    }

    /// The stamps of an entry behind these: none, or one to three as far as a continuation page has slots for them and the entry, or as many as it
    /// has slots for. Some have the name and extension of an entry of the directory, but for the top bit of the first byte.
    fn stamps(&mut self, before: &[Item]) -> Vec<Vec<u8>> {
        if self.shape.stamp_percent == 0 || !self.rng.chance(self.shape.stamp_percent) {
            return Vec::new();
        }
        let most = self.geometry.continuation_entries() - 1;
        let few = self.rng.between(1, 3).min(most);
        let count = if self.rng.chance(8) { most } else { few };
        (0..count)
            .map(|_| match self.rng.pick(before) {
                Some(item) if self.rng.chance(15) => self.stamp_like(item),
                _ => random_stamp(&self.geometry, self.rng),
            })
            .collect()
    }

    /// A stamp with the name and extension number of an entry, but for the top bit of the first byte.
    fn stamp_like(&mut self, item: &Item) -> Vec<u8> {
        let (name, extension) = item.key();
        let mut stamp = random_stamp(&self.geometry, self.rng);
        stamp[..4].copy_from_slice(&name);
        stamp[0] |= 0x80;
        stamp[4] = extension;
        stamp
    }

    /// Makes space for so many slots more at a directory's end; sometimes leaves space behind.
    fn make_space(&mut self, plan: &mut DirectoryPlan, slots: usize) -> bool {
        while self.rng.chance(self.shape.odd_packet_percent / 4) {
            if !self.append_page(plan) {
                return false;
            }
        }
        let capacity = if plan.pages.len() == 1 {
            self.geometry.first_page_entries()
        } else {
            self.geometry.continuation_entries()
        };
        let taken = plan.last_slots();
        taken + slots <= capacity || self.append_page(plan)
    }

    /// Joins a page from the pool to a directory's end.
    fn append_page(&mut self, plan: &mut DirectoryPlan) -> bool {
        let Some(page) = self.pool.pop() else {
            return false;
        };
        plan.pages.push(page);
        plan.counts.push(0);
        true
    }

    /// An entry of a directory at `level` (0 is the root), if there is a page for it.
    fn item(
        &mut self,
        level: u32,
        first: bool,
        names: &mut HashSet<([u8; 4], u8)>,
    ) -> Option<Item> {
        let wanted = self.rng.chance(self.shape.directory_percent) || (self.shape.deep && first);
        let is_directory = wanted && level < 8;
        let (name, extension) = self.new_name(is_directory, names)?;
        let page = self.pool.pop()?;
        if is_directory {
            return Some(Item::Directory {
                name,
                hidden: self.rng.chance(self.shape.hidden_percent),
                directory: self.directory(page, level + 1),
            });
        }
        let read_only = self.rng.chance(25);
        let chain = self.file_chain(page);
        let length = chain.lengths.iter().sum();
        Some(Item::File(FilePlan {
            name,
            extension,
            read_only,
            bytes: self.rng.bytes(length),
            chain,
        }))
    }

    /// A name and extension number that the directory does not have yet.
    fn new_name(
        &mut self,
        is_directory: bool,
        names: &mut HashSet<([u8; 4], u8)>,
    ) -> Option<([u8; 4], u8)> {
        for _ in 0..100 {
            let name = random_name(self.rng);
            let extension = match (is_directory, self.rng.chance(30)) {
                (true, _) => 127,
                (false, true) => [0, 1, 12, 98, 99][self.rng.below(5)],
                (false, false) => self.rng.below(100) as u8,
            };
            if names.insert((name, extension)) {
                return Some((name, extension));
            }
        }
        None
    }

    /// A file's chain from a first page on.
    fn file_chain(&mut self, first: usize) -> Chain {
        let more = self.rng.below(self.shape.most_file_pages.max(1));
        let mut pages = vec![first];
        pages.extend(self.take(more));
        let most = self.geometry.max_data();
        let last = pages.len() - 1;
        let mut lengths = vec![most; pages.len()];
        for (place, length) in lengths.iter_mut().enumerate() {
            if self.rng.chance(self.shape.odd_packet_percent) {
                *length = [0, 1, self.rng.below(most), most - 1][self.rng.below(4)];
            } else if place == last {
                *length = self.rng.between(0, most);
            }
        }
        Chain { pages, lengths }
    }
}
