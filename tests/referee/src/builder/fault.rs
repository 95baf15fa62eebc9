//! Images with one fault, whose number and page are known by construction; with two faults; with bytes changed at random.
//!
//! Each alteration for a fault leaves everything that the check meets before it as it was.

use super::pages::Pages;
use super::plan::{Built, BuiltChain, BuiltEntry, ChainOf};
use super::random::random_stamp;
use crate::answer::Answer;
use crate::rng::Rng;

/// An altered image and the answer that the check must give.
type Faulty = (Vec<u8>, Answer);

/// Alters a built image so that the check answers `number` (2 to 13).
/// None if the image has no place for such a fault, or no place was found by chance.
pub fn with_fault(built: &Built, number: u32, rng: &mut Rng) -> Option<Faulty> {
    altered(built, &built.image, number, rng)
}

/// Alters a built image twice, for two faults (2 to 13 each); which of them the check meets is left open.
/// The second alteration may undo the first. None if there is no place for one of them.
pub fn with_two_faults(built: &Built, numbers: [u32; 2], rng: &mut Rng) -> Option<Vec<u8>> {
    // A broken packet comes last, since the other alterations need sound packets.
    let [first, second] = if numbers[0] == 2 {
        [numbers[1], numbers[0]]
    } else {
        numbers
    };
    let (image, _) = altered(built, &built.image, first, rng)?;
    let (image, _) = altered(built, &image, second, rng)?;
    Some(image)
}

/// Alters an image with the pages of `built` for one fault.
fn altered(built: &Built, image: &[u8], number: u32, rng: &mut Rng) -> Option<Faulty> {
    for _ in 0..30 {
        let mut work = Alteration {
            built,
            pages: Pages::of(built.page_length, built.page_count, image),
            rng,
        };
        if let Some(page) = work.make(number) {
            let answer = Answer {
                number,
                page: page as u32,
            };
            return Some((work.pages.image, answer));
        }
    }
    None
}

/// Flips some bits of packets in use and computes their checks again; length bytes stay.
pub fn with_sealed_flips(built: &Built, rng: &mut Rng) -> Vec<u8> {
    let mut pages = Pages::of(built.page_length, built.page_count, &built.image);
    for _ in 0..rng.between(1, 3) {
        let Some(chain) = rng.pick(&built.chains) else {
            break;
        };
        let Some(&page) = rng.pick(&chain.pages) else {
            break;
        };
        let place = rng.between(1, usize::from(pages.page(page)[0]));
        let byte = pages.page(page)[place] ^ 1 << rng.below(8);
        pages.alter(page, place, &[byte]);
    }
    pages.image
}

/// Alters some bytes of packets in use and computes their checks again, so that any fault or none may follow.
pub fn with_random_changes(built: &Built, rng: &mut Rng) -> Vec<u8> {
    let mut pages = Pages::of(built.page_length, built.page_count, &built.image);
    for _ in 0..rng.between(1, 3) {
        let Some(chain) = rng.pick(&built.chains) else {
            break;
        };
        let Some(&page) = rng.pick(&chain.pages) else {
            break;
        };
        change_packet(&mut pages, page, rng);
    }
    pages.image
}

/// Copies one of the packet's last entries (if it is a directory's) over another, without its start and count.
fn copy_entry(pages: &mut Pages, page: usize, rng: &mut Rng) {
    let entry = pages.geometry.entry_length();
    let end = 1 + pages.body(page).len();
    let entries = (end - 1) / entry;
    if entries < 2 {
        return;
    }
    let from = end - entry * rng.between(1, entries);
    let to = end - entry * rng.between(1, entries);
    let bytes = pages.page(page)[from..from + 5].to_vec();
    pages.alter(page, to, &bytes);
}

/// Changes one byte of a packet, or its length, or copies an entry, and computes its check again.
fn change_packet(pages: &mut Pages, page: usize, rng: &mut Rng) {
    let length = usize::from(pages.page(page)[0]);
    if length < pages.geometry.number_length() {
        return;
    }
    if rng.chance(10) {
        return copy_entry(pages, page, rng);
    }
    let most = pages.geometry.max_packet_length();
    if rng.chance(15) {
        let shorter = rng.between(0, most) as u8;
        let near = (length + rng.below(3)).saturating_sub(1).min(most) as u8;
        let new_length = if rng.chance(50) { shorter } else { near };
        pages.alter(page, 0, &[new_length]);
        return;
    }
    let old = pages.page(page)[1 + rng.below(length)];
    let near = old.wrapping_add(1);
    let small = rng.below(pages.geometry.page_count().min(256)) as u8;
    let values = [0, near, small, small, 127, 255, rng.byte(), old ^ 0x80];
    let value = values[rng.below(values.len())];
    pages.alter(page, 1 + rng.below(length), &[value]);
}

/// A built image, its copy that is altered, and the random choices.
struct Alteration<'a> {
    built: &'a Built,
    pages: Pages,
    rng: &'a mut Rng,
}

impl<'a> Alteration<'a> {
    /// Makes the fault and gives the page that the answer must tell.
    fn make(&mut self, number: u32) -> Option<usize> {
        match number {
            2 => self.packet(),
            3 => self.marker(),
            4 => self.control(),
            5 => self.in_progress(),
            6 => self.page_number(),
            7 => self.crossed(),
            8 => self.count(),
            9 => self.name(),
            10 => self.extension(),
            11 => self.twice(),
            12 => self.too_deep(),
            13 => self.bitmap(),
            _ => None,
        }
    }

    /// n, the bytes of a page number.
    fn n(&self) -> usize {
        self.pages.geometry.number_length()
    }

    /// The length byte of a page.
    fn length(&self, page: usize) -> usize {
        usize::from(self.pages.page(page)[0])
    }

    /// A random chain.
    fn chain(&mut self) -> Option<&'a BuiltChain> {
        self.rng.pick(&self.built.chains)
    }

    /// A random page in use.
    fn used_page(&mut self) -> Option<usize> {
        let chain = self.chain()?;
        self.rng.pick(&chain.pages).copied()
    }

    /// A random entry.
    fn entry(&mut self) -> Option<&'a BuiltEntry> {
        self.rng.pick(&self.built.entries)
    }

    /// A random entry of a file or of a directory.
    fn entry_of(&mut self, of: ChainOf) -> Option<&'a BuiltEntry> {
        let built = self.built;
        let kind = |entry: &&BuiltEntry| built.chains[entry.chain].of == of;
        let entries: Vec<&BuiltEntry> = built.entries.iter().filter(kind).collect();
        self.rng.pick(&entries).copied()
    }

    /// The first page of a random subdirectory.
    fn subdirectory_page(&mut self) -> Option<usize> {
        let entry = self.entry_of(ChainOf::Directory)?;
        Some(entry.listing.start as usize)
    }

    /// The bitmap file's chain, if there is one.
    fn bitmap_chain(&self) -> Option<&'a BuiltChain> {
        let chains = &self.built.chains;
        chains.iter().find(|chain| chain.of == ChainOf::Bitmap)
    }

    /// The place of the bitmap control byte in page 0.
    fn bitmap_control(&self) -> usize {
        2 + self.n()
    }

    /// The places in page 0 of the bitmap file's start page and page count.
    fn bitmap_file_places(&self) -> (usize, usize) {
        let end = self.bitmap_control() + 5;
        (end - 2 * self.n(), end - self.n())
    }

    /// A page number that is at least N, if n bytes can hold one.
    fn number_too_high(&mut self) -> Option<usize> {
        let count = self.pages.geometry.page_count();
        let most = if self.n() == 1 { 255 } else { 65_535 };
        (count <= most).then(|| self.rng.between(count, most))
    }

    /// Writes a page number to a place in a page and computes its check again.
    fn set_number(&mut self, page: usize, offset: usize, number: usize) {
        let bytes = self.pages.geometry.number_bytes(number);
        self.pages.alter(page, offset, &bytes);
    }

    /// A non-zero byte.
    fn nonzero(&mut self) -> u8 {
        self.rng.between(1, 255) as u8
    }

    /// Changes a byte of a page by exclusive-or and computes its check again.
    fn flip(&mut self, page: usize, offset: usize, bits: u8) {
        let byte = self.pages.page(page)[offset];
        self.pages.alter(page, offset, &[byte ^ bits]);
    }

    /// 2: a length outside its limits, a wrong check, or a single wrong bit.
    fn packet(&mut self) -> Option<usize> {
        let page = self.used_page()?;
        let length = self.length(page);
        let (n, most) = (self.n(), self.pages.geometry.max_packet_length());
        if !(n..=most).contains(&length) {
            return None;
        }
        let variant = self.rng.below(4);
        let too_long = self.rng.between(most + 1, 255) as u8;
        let too_short = self.rng.below(n) as u8;
        let bits = self.nonzero();
        let place = 1 + self.rng.below(length + 2);
        let bit = self.rng.below(8);
        let check_byte = 1 + length + self.rng.below(2);
        let bytes = self.pages.page_mut(page);
        match variant {
            0 => bytes[0] = too_long,
            1 => bytes[0] = too_short,
            2 => bytes[check_byte] ^= bits,
            _ => bytes[place] ^= 1 << bit,
        }
        Some(page)
    }

    /// 3: another marker on page 0 or on a subdirectory's first page.
    fn marker(&mut self) -> Option<usize> {
        let page = if self.rng.chance(50) {
            0
        } else {
            self.subdirectory_page()?
        };
        let bits = self.nonzero();
        self.flip(page, 1, bits);
        Some(page)
    }

    /// 4: the control field of the root or of a subdirectory.
    fn control(&mut self) -> Option<usize> {
        if self.rng.chance(50) {
            self.root_control()
        } else {
            self.subdirectory_control()
        }
    }

    /// Makes a directory's first packet too short for its control field.
    fn cut_control(&mut self, page: usize) -> Option<usize> {
        let shorter = self.rng.below(self.pages.geometry.control_length());
        let length = (self.n() + shorter) as u8;
        self.pages.alter(page, 0, &[length]);
        Some(page)
    }

    /// 4 on page 0: too short, map address, bits 1 to 6, the two zero bytes, or local with N above 32.
    fn root_control(&mut self) -> Option<usize> {
        let control = self.bitmap_control();
        let bits = self.nonzero();
        match self.rng.below(5) {
            0 => return self.cut_control(0),
            1 => {
                let place = 2 + self.rng.below(self.n());
                self.flip(0, place, bits);
            }
            2 => {
                let bit = 1 << self.rng.between(1, 6);
                self.flip(0, control, bit);
            }
            3 if self.n() == 1 && !self.built.local_bitmap => {
                let place = control + 1 + self.rng.below(2);
                self.flip(0, place, bits);
            }
            4 if !self.pages.geometry.allows_local_bitmap() => self.flip(0, control, 0x80),
            _ => return None,
        }
        Some(0)
    }

    /// 4 on a subdirectory's first page: too short, name, zero byte, or start page.
    fn subdirectory_control(&mut self) -> Option<usize> {
        let page = self.subdirectory_page()?;
        if self.rng.chance(30) {
            return self.cut_control(page);
        }
        let place = self.rng.between(2, 6 + self.n());
        let bits = self.nonzero();
        self.flip(page, place, bits);
        Some(page)
    }

    /// 5: the in-progress bit, sometimes with other bits of the bitmap control.
    fn in_progress(&mut self) -> Option<usize> {
        let control = self.bitmap_control();
        let others = self.rng.byte() & self.rng.byte() & 0xFE;
        self.flip(0, control, 1 | others);
        Some(0)
    }

    /// 6: a start page of 0 or at least N, or a pointer of at least N; told at the page that holds it.
    fn page_number(&mut self) -> Option<usize> {
        let high = self.number_too_high();
        let start = if self.rng.chance(50) { Some(0) } else { high }?;
        match self.rng.below(3) {
            0 => {
                let entry = self.entry()?;
                self.set_number(entry.page, entry.offset + 5, start);
                Some(entry.page)
            }
            1 => {
                self.bitmap_chain()?;
                let (place, _) = self.bitmap_file_places();
                self.set_number(0, place, start);
                Some(0)
            }
            _ => {
                let page = self.used_page()?;
                self.pages.set_pointer(page, high?);
                Some(page)
            }
        }
    }

    /// 7: a pointer or a start page that leads to a page met before; told at that page.
    fn crossed(&mut self) -> Option<usize> {
        let place = self.rng.below(self.built.chains.len());
        let chain = &self.built.chains[place];
        let before = self.built.chains[..place].iter();
        let mut met: Vec<usize> = before.flat_map(|chain| chain.pages.clone()).collect();
        let entry = self
            .built
            .entries
            .iter()
            .find(|entry| entry.chain == place && self.rng.chance(40));
        if let Some(entry) = entry {
            met.retain(|&page| page != 0);
            let target = *self.rng.pick(&met)?;
            self.set_number(entry.page, entry.offset + 5, target);
            return Some(target);
        }
        let from = self.rng.below(chain.pages.len());
        met.extend(&chain.pages[..=from]);
        met.retain(|&page| page != 0);
        let target = *self.rng.pick(&met)?;
        self.pages.set_pointer(chain.pages[from], target);
        Some(target)
    }

    /// 8: a page count, the bitmap file's byte count, or entries that are not whole.
    fn count(&mut self) -> Option<usize> {
        match self.rng.below(5) {
            0 => self.file_count(),
            1 => self.subdirectory_count(),
            2 => self.bitmap_count(),
            3 => self.bitmap_bytes(),
            _ => self.not_whole(),
        }
    }

    /// A number that n bytes can hold, other than `right`.
    fn other_number(&mut self, right: usize) -> usize {
        let most = if self.n() == 1 { 255 } else { 65_535 };
        let near = right + 1 - 2 * self.rng.below(2).min(right);
        let far = self.rng.between(0, most);
        let number = if self.rng.chance(50) { near } else { far };
        if number == right || number > most {
            right - 1
        } else {
            number
        }
    }

    /// 8: a file's page count.
    fn file_count(&mut self) -> Option<usize> {
        let entry = self.entry_of(ChainOf::File)?;
        let count = self.other_number(entry.listing.pages as usize);
        self.set_number(entry.page, entry.offset + 5 + self.n(), count);
        Some(entry.page)
    }

    /// 8: a subdirectory's page count, which is 0.
    fn subdirectory_count(&mut self) -> Option<usize> {
        let entry = self.entry_of(ChainOf::Directory)?;
        let place = entry.offset + 5 + self.rng.below(self.n()) + self.n();
        let bits = self.nonzero();
        self.flip(entry.page, place, bits);
        Some(entry.page)
    }

    /// 8: the bitmap file's page count.
    fn bitmap_count(&mut self) -> Option<usize> {
        let pages = self.bitmap_chain()?.pages.len();
        let count = self.other_number(pages);
        let (_, place) = self.bitmap_file_places();
        self.set_number(0, place, count);
        Some(0)
    }

    /// 8: one byte more or less in a packet of the bitmap file.
    fn bitmap_bytes(&mut self) -> Option<usize> {
        let chain = self.bitmap_chain()?;
        let page = *self.rng.pick(&chain.pages)?;
        let mut body = self.pages.body(page);
        if body.len() < self.pages.geometry.max_data() && self.rng.chance(50) {
            body.push(0);
        } else {
            body.pop()?;
        }
        let pointer = self.pages.pointer(page);
        self.pages.packet(page, &body, pointer);
        Some(0)
    }

    /// 8: bytes in a directory page that are no whole entry.
    fn not_whole(&mut self) -> Option<usize> {
        let chain = self.chain()?;
        if matches!(chain.of, ChainOf::File | ChainOf::Bitmap) {
            return None;
        }
        let page = *self.rng.pick(&chain.pages)?;
        let stray = self.rng.between(1, self.pages.geometry.entry_length() - 1);
        let mut body = self.pages.body(page);
        if body.len() + stray <= self.pages.geometry.max_data() {
            let bytes = self.rng.bytes(stray);
            body.extend(bytes);
        } else {
            body.truncate(body.len() - stray);
        }
        let pointer = self.pages.pointer(page);
        self.pages.packet(page, &body, pointer);
        Some(page)
    }

    /// 9: a byte that no name has, a blank before another byte, or a high byte after the first.
    fn name(&mut self) -> Option<usize> {
        let entry = self.entry()?;
        let wrong: [u8; 16] = *b"az\"()*+,-./:;\\|\x7F";
        let byte = wrong[self.rng.below(wrong.len())];
        let place = self.rng.below(4);
        if entry.stamps > 0 && self.rng.chance(40) {
            return self.stamp_name(entry, byte);
        }
        match self.rng.below(4) {
            0 => self.pages.alter(entry.page, entry.offset, b" "),
            1 => self.pages.alter(entry.page, entry.offset, b"A B "),
            2 => {
                let high = [self.rng.between(128, 255) as u8];
                let place = self.rng.between(1, 3);
                self.pages.alter(entry.page, entry.offset + place, &high)
            }
            _ => self.pages.alter(entry.page, entry.offset + place, &[byte]),
        };
        Some(entry.page)
    }

    /// 9: a stamp of an entry whose first byte is one below 128 that no name has.
    fn stamp_name(&mut self, entry: &BuiltEntry, byte: u8) -> Option<usize> {
        let back = self.rng.between(1, entry.stamps) * self.pages.geometry.entry_length();
        self.pages.alter(entry.page, entry.offset - back, &[byte]);
        Some(entry.page)
    }

    /// 10: a stamp with no plain entry after it in its page, or an extension number from 100 to 126.
    fn extension(&mut self) -> Option<usize> {
        match self.rng.below(4) {
            0 => self.last_becomes_stamp(),
            1 => self.stamp_at_end(),
            _ => self.extension_number(),
        }
    }

    /// 10: the last entry of a page becomes a stamp.
    fn last_becomes_stamp(&mut self) -> Option<usize> {
        let entry = self.entry()?;
        let end = entry.offset + self.pages.geometry.entry_length();
        if end != 1 + self.pages.body(entry.page).len() {
            return None;
        }
        let first = self.rng.between(128, 255) as u8;
        self.pages.alter(entry.page, entry.offset, &[first]);
        Some(entry.page)
    }

    /// 10: one stamp or more at the end of a directory page with space for them, which may have no entry.
    fn stamp_at_end(&mut self) -> Option<usize> {
        let chain = self.chain()?;
        if matches!(chain.of, ChainOf::File | ChainOf::Bitmap) {
            return None;
        }
        let geometry = self.pages.geometry;
        let page = *self.rng.pick(&chain.pages)?;
        let mut body = self.pages.body(page);
        let space = geometry.max_data().checked_sub(body.len())? / geometry.entry_length();
        if space == 0 {
            return None;
        }
        for _ in 0..self.rng.between(1, space.min(3)) {
            body.extend(random_stamp(&geometry, self.rng));
        }
        let pointer = self.pages.pointer(page);
        self.pages.packet(page, &body, pointer);
        Some(page)
    }

    /// 10: an extension number from 100 to 126.
    fn extension_number(&mut self) -> Option<usize> {
        let entry = self.entry()?;
        let number = self.rng.between(100, 126) as u8;
        let attribute = self.rng.byte() & 0x80;
        let byte = [number | attribute];
        self.pages.alter(entry.page, entry.offset + 4, &byte);
        Some(entry.page)
    }

    /// 11: name and extension number of an earlier entry of the directory, with any attribute bit.
    fn twice(&mut self) -> Option<usize> {
        let place = self.rng.below(self.built.entries.len());
        let entry = self.built.entries.get(place)?;
        let earlier: Vec<&BuiltEntry> = self.built.entries[..place]
            .iter()
            .filter(|other| other.directory == entry.directory)
            .collect();
        let other = *self.rng.pick(&earlier)?;
        let mut bytes = self.pages.page(other.page)[other.offset..other.offset + 5].to_vec();
        bytes[4] ^= self.rng.byte() & 0x80;
        self.pages.alter(entry.page, entry.offset, &bytes);
        Some(entry.page)
    }

    /// 12: a file's entry in a directory at level eight that becomes a subdirectory's.
    fn too_deep(&mut self) -> Option<usize> {
        let deepest = |entry: &&BuiltEntry| entry.listing.level == 8;
        let entries: Vec<&BuiltEntry> = self.built.entries.iter().filter(deepest).collect();
        let entry = *self.rng.pick(&entries)?;
        let extension = [127 | self.rng.byte() & 0x80];
        self.pages.alter(entry.page, entry.offset + 4, &extension);
        Some(entry.page)
    }

    /// 13: some wrong bits; the lowest is told.
    fn bitmap(&mut self) -> Option<usize> {
        let bits = if self.built.local_bitmap {
            32
        } else {
            8 * self.pages.geometry.bitmap_file_length()
        };
        let count = self.rng.between(1, 3);
        let mut flips: Vec<usize> = (0..count).map(|_| self.rng.below(bits)).collect();
        flips.sort_unstable();
        flips.dedup();
        for &bit in &flips {
            let (page, offset) = self.bitmap_byte(bit / 8)?;
            self.flip(page, offset, 1 << (bit % 8));
        }
        flips.first().copied()
    }

    /// The page and the place in it of a byte of the bitmap.
    fn bitmap_byte(&self, byte: usize) -> Option<(usize, usize)> {
        let Some(chain) = self.bitmap_chain() else {
            return Some((0, self.bitmap_control() + 1 + byte));
        };
        let mut before = 0;
        for &page in &chain.pages {
            let length = self.pages.body(page).len();
            if byte < before + length {
                return Some((page, 1 + byte - before));
            }
            before += length;
        }
        None
    }
}
