//! What the tests share: calls of the library and of the second program alike, with the promises that hold for every call.
//!
//! The second program is a crate of its own, `referee`, which knows nothing of the library. `library` calls the library, `agreed` calls it and the
//! second program with equal arguments and compares all they leave. Every call of a `Button` and of `both` goes through `agreed`: a button's calls
//! have an owner table that is longer than needed, those of `both` one of any length.
//!
//! `generators` has what they are called with, `trials` makes the calls with generated images, `edit_runs` makes long runs of calls on one image,
//! `plans` works out what edits leave, `puts` has what puts are called with and what they meet, `write_orders` works out the page writes of careful
//! edits, `stops` stops them after each, `trees` has small trees, `dumps` makes dumps and runs the program `list`, `c_programs` compiles and runs the C
//! programs of `tests/c`, `c_calls` has the calls that one of them makes, `declarations` reads the header and what must agree with it,
//! `directory_edits` makes and removes directories by one of the programs alone, `reports` has count files and reports, `contents` tells what an image
//! holds, `edit_pairs` makes two edits in either order, `gathered` works out what a gathered copy is.

pub mod agreed;
pub mod both;
pub mod c_calls;
pub mod c_programs;
pub mod contents;
pub mod declarations;
pub mod directory_edits;
pub mod dumps;
pub mod edit_pairs;
pub mod edit_runs;
pub mod gathered;
pub mod generators;
pub mod library;
pub mod plans;
pub mod puts;
pub mod reports;
pub mod stops;
pub mod trees;
pub mod trials;
pub mod write_orders;

use std::collections::BTreeMap;
use std::ops::Range;

use referee::builder::pages::Pages;
use referee::builder::plan::Built;
use referee::owners::{table_length, RECORD_LENGTH};
use referee::rng::Rng;
use referee::{Answer, Length, Listing, Mended, Totals, Writes};

/// What an owner table holds before a call, so that untouched bytes are seen.
const BEFORE: u8 = 0xC7;

/// What a second image holds before a gather, so that untouched bytes are seen.
const COPY_BEFORE: u8 = 0x3A;

/// Bytes of the owner table past the first N records.
const EXTRA: usize = 5;

/// What the owner table tells of a page: its owner, and its place in the owner's chain.
pub type Record = (u16, u16);

/// The record of a free page.
pub const FREE: Record = (0, 0);

/// An image with its page length and page count. Each call is made by the library and by the second program, with equal answers and equal bytes.
#[derive(Clone, Debug, PartialEq, Eq)]
pub struct Button {
    pub page_length: u32,
    pub page_count: u32,
    pub image: Vec<u8>,
}

impl From<&Pages> for Button {
    fn from(pages: &Pages) -> Button {
        Button {
            page_length: pages.geometry.page_length() as u32,
            page_count: pages.geometry.page_count() as u32,
            image: pages.image.clone(),
        }
    }
}

impl From<&Built> for Button {
    fn from(built: &Built) -> Button {
        Button {
            page_length: built.page_length,
            page_count: built.page_count,
            image: built.image.clone(),
        }
    }
}

impl From<&mut Pages> for Button {
    fn from(pages: &mut Pages) -> Button {
        Button::from(&*pages)
    }
}

/// Runs a call with an owner table that is longer than needed, and tells its first N records afterwards.
/// They are zeros after a fault of the image; the rest never changes.
fn with_table<T>(
    page_count: u32,
    number: impl Fn(&T) -> u32,
    call: impl FnOnce(&mut [u8]) -> T,
) -> (T, Vec<Record>) {
    let used = table_bytes(page_count);
    let mut table = vec![BEFORE; used + EXTRA];
    let answer = call(&mut table);
    assert!(table[used..].iter().all(|&byte| byte == BEFORE));
    let owners = records(&table[..used]);
    match number(&answer) {
        1 => assert!(table.iter().all(|&byte| byte == BEFORE), "table after 1"),
        2 | 3 | 5..=13 => assert!(all_free(&owners), "table after fault"),
        _ => demand_places(&owners),
    }
    (answer, owners)
}

/// The bytes of an owner table that so many pages need; for a number of pages that no image has, those of some more than any image has.
pub fn table_bytes(page_count: u32) -> usize {
    table_length((page_count as usize).min(70_000))
}

/// The records of an owner table: four bytes each, owner and place, low byte first.
pub fn records(table: &[u8]) -> Vec<Record> {
    let number = |low: u8, high: u8| u16::from(low) + 256 * u16::from(high);
    table
        .chunks_exact(RECORD_LENGTH)
        .map(|four| (number(four[0], four[1]), number(four[2], four[3])))
        .collect()
}

/// Whether all these pages are free.
pub fn all_free(owners: &[Record]) -> bool {
    owners.iter().all(|&record| record == FREE)
}

/// The pages of an owner in the order of its chain, by their places.
pub fn chain_of(owners: &[Record], owner: u16) -> Vec<usize> {
    let pages = owners.iter().enumerate();
    let mut chain: Vec<(u16, usize)> = pages
        .filter(|(_, record)| record.0 == owner)
        .map(|(page, record)| (record.1, page))
        .collect();
    chain.sort_unstable();
    chain.into_iter().map(|(_, page)| page).collect()
}

/// Demands that the pages of each owner have the places 0, 1, 2 and so on, each once, and free pages the place 0.
fn demand_places(owners: &[Record]) {
    let mut sorted = owners.to_vec();
    sorted.sort_unstable();
    let mut before = FREE;
    for record in sorted {
        let next = match record {
            (0, _) => FREE,
            (owner, _) if owner == before.0 => (owner, before.1 + 1),
            (owner, _) => (owner, 0),
        };
        assert_eq!(record, next, "places of the owner");
        before = record;
    }
}

/// An answer of number and page.
pub fn answer(number: u32, page: u32) -> Answer {
    Answer { number, page }
}

/// The answer of a careful call that was done: the writes made, and whether any are left.
pub fn writes(made: u32, left: bool) -> Writes {
    Writes {
        number: 0,
        page: 0,
        made,
        left: u32::from(left),
    }
}

/// The answer of a careful call that was refused.
pub fn no_writes(number: u32, page: u32) -> Writes {
    Writes {
        number,
        page,
        ..Writes::default()
    }
}

/// The answer of a mend that was done.
pub fn mended(cleared: u32) -> Mended {
    Mended {
        number: 0,
        page: 0,
        cleared,
    }
}

/// The answer of a mend that was refused.
pub fn not_mended(number: u32, page: u32) -> Mended {
    Mended {
        number,
        page,
        cleared: 0,
    }
}

impl Button {
    /// An image of zeros.
    pub fn zeros(page_length: u32, page_count: u32) -> Button {
        let length = page_length as usize * page_count as usize;
        Button {
            page_length,
            page_count,
            image: vec![0; length],
        }
    }

    /// A formatted image, all other bytes zero.
    pub fn formatted(page_length: u32, page_count: u32, local: bool) -> Button {
        let mut button = Button::zeros(page_length, page_count);
        let (done, _) = button.format(local);
        assert_eq!(done, answer(0, 0));
        button
    }

    /// The bytes of a page.
    pub fn page(&self, page: usize) -> &[u8] {
        let length = self.page_length as usize;
        &self.image[page * length..(page + 1) * length]
    }

    /// A copy of the image whose pages can be changed.
    pub fn pages(&self) -> Pages {
        Pages::of(self.page_length, self.page_count, &self.image)
    }

    /// Check, with the owner table.
    pub fn check(&self) -> (Totals, Vec<Record>) {
        with_table(
            self.page_count,
            |totals: &Totals| totals.number,
            |table| agreed::check(self.page_length, self.page_count, &self.image, table),
        )
    }

    /// The number and page of a check, and nothing else in a refusal.
    pub fn verdict(&self) -> Answer {
        let (totals, owners) = self.check();
        if totals.number != 0 {
            let refusal = Totals {
                number: totals.number,
                page: totals.page,
                ..Totals::default()
            };
            assert_eq!(totals, refusal);
            assert!(all_free(&owners));
        }
        answer(totals.number, totals.page)
    }

    /// List by number, with the owner table.
    pub fn list(&self, position: u32) -> (Listing, Vec<Record>) {
        with_table(
            self.page_count,
            |listing: &Listing| listing.number,
            |table| {
                agreed::list(
                    self.page_length,
                    self.page_count,
                    &self.image,
                    table,
                    position,
                )
            },
        )
    }

    /// All entries in walk order, by position until 15.
    pub fn list_all(&self) -> Vec<Listing> {
        let mut all = Vec::new();
        loop {
            let (listing, _) = self.list(all.len() as u32);
            if listing.number == 15 {
                return all;
            }
            assert_eq!(listing.number, 0);
            all.push(listing);
        }
    }

    /// Read into `out`; a refusal leaves it alone, a success its rest.
    pub fn read_into(&self, path: &[u8], out: &mut [u8]) -> (Length, Vec<Record>) {
        let before = out.to_vec();
        let (length, owners) = with_table(
            self.page_count,
            |length: &Length| length.number,
            |table| {
                agreed::read(
                    self.page_length,
                    self.page_count,
                    &self.image,
                    path,
                    out,
                    table,
                )
            },
        );
        if length.number != 0 {
            assert_eq!(length.length, 0);
        }
        let filled = length.length as usize;
        assert_eq!(out[filled..], before[filled..]);
        (length, owners)
    }

    /// The number of a read into an output as long as the image, and the bytes read.
    pub fn read(&self, path: &[u8]) -> (u32, Vec<u8>) {
        let mut out = vec![0xEE; self.image.len()];
        let (length, _) = self.read_into(path, &mut out);
        out.truncate(length.length as usize);
        (length.number, out)
    }

    /// Format, with the owner table; a refusal changes nothing.
    pub fn format(&mut self, local: bool) -> (Answer, Vec<Record>) {
        self.edit(|page_length, page_count, image, table| {
            agreed::format(page_length, page_count, image, table, u32::from(local))
        })
    }

    /// Put, with the owner table; a refusal changes nothing.
    pub fn put(&mut self, path: &[u8], bytes: &[u8]) -> (Answer, Vec<Record>) {
        self.edit(|page_length, page_count, image, table| {
            agreed::put(page_length, page_count, image, path, bytes, table)
        })
    }

    /// Delete, with the owner table; a refusal changes nothing.
    pub fn delete(&mut self, path: &[u8]) -> (Answer, Vec<Record>) {
        self.edit(|page_length, page_count, image, table| {
            agreed::delete(page_length, page_count, image, path, table)
        })
    }

    /// Make a directory, with the owner table; a refusal changes nothing.
    pub fn make_directory(&mut self, path: &[u8]) -> (Answer, Vec<Record>) {
        self.edit(|page_length, page_count, image, table| {
            agreed::make_directory(page_length, page_count, image, path, table)
        })
    }

    /// Remove a directory, with the owner table; a refusal changes nothing.
    pub fn remove_directory(&mut self, path: &[u8]) -> (Answer, Vec<Record>) {
        self.edit(|page_length, page_count, image, table| {
            agreed::remove_directory(page_length, page_count, image, path, table)
        })
    }

    /// Careful put with so many writes allowed, with the owner table; a refusal changes nothing.
    pub fn careful_put(
        &mut self,
        path: &[u8],
        bytes: &[u8],
        allowed: u32,
    ) -> (Writes, Vec<Record>) {
        self.change(
            |writes: &Writes| writes.number,
            |page_length, page_count, image, table| {
                agreed::careful_put(page_length, page_count, image, path, bytes, table, allowed)
            },
        )
    }

    /// Careful delete with so many writes allowed, with the owner table; a refusal changes nothing.
    pub fn careful_delete(&mut self, path: &[u8], allowed: u32) -> (Writes, Vec<Record>) {
        self.change(
            |writes: &Writes| writes.number,
            |page_length, page_count, image, table| {
                agreed::careful_delete(page_length, page_count, image, path, table, allowed)
            },
        )
    }

    /// Mend, with the owner table; a refusal changes nothing.
    pub fn mend(&mut self) -> (Mended, Vec<Record>) {
        self.change(
            |mended: &Mended| mended.number,
            |page_length, page_count, image, table| {
                agreed::mend(page_length, page_count, image, table)
            },
        )
    }

    /// Gather, with the copy and the owner table, which tells of the copy when done and else of the image.
    pub fn gather(&self) -> (Answer, Button, Vec<Record>) {
        let mut copy = self.clone();
        copy.image.fill(COPY_BEFORE);
        let (told, owners) = with_table(
            self.page_count,
            |told: &Answer| told.number,
            |table| {
                let (p, n) = (self.page_length, self.page_count);
                agreed::gather(p, n, &self.image, &mut copy.image, table)
            },
        );
        match told.number {
            0 => assert_eq!(owners, copy.check().1, "owners of the copy"),
            1 => {}
            _ => assert_eq!(owners, self.check().1, "owners of the image"),
        }
        (told, copy, owners)
    }

    /// The gathered copy of an accepted image.
    pub fn gathered(&self) -> Button {
        let (told, copy, _) = self.gather();
        assert_eq!(told, Answer::default());
        copy
    }

    /// Runs an edit that answers number and page.
    fn edit(
        &mut self,
        call: impl FnOnce(u32, u32, &mut [u8], &mut [u8]) -> Answer,
    ) -> (Answer, Vec<Record>) {
        self.change(|done: &Answer| done.number, call)
    }

    /// Runs a call that may change the image: the table tells of the image as it then stands.
    fn change<T>(
        &mut self,
        number: impl Fn(&T) -> u32,
        call: impl FnOnce(u32, u32, &mut [u8], &mut [u8]) -> T,
    ) -> (T, Vec<Record>) {
        let (page_length, page_count) = (self.page_length, self.page_count);
        let image = &mut self.image;
        let (told, owners) = with_table(page_count, &number, |table| {
            call(page_length, page_count, image, table)
        });
        if number(&told) != 1 {
            assert_eq!(owners, self.check().1, "owners of the image as it stands");
        }
        (told, owners)
    }

    /// Demands one refusal of the image from every call that checks it.
    pub fn refused_by_all(&self, number: u32, page: u32) {
        let refusal = answer(number, page);
        assert_eq!(self.verdict(), refusal);
        let listing = Listing {
            number,
            page,
            ..Listing::default()
        };
        assert_eq!(self.list(0).0, listing);
        let length = Length {
            number,
            page,
            length: 0,
        };
        assert_eq!(self.read_into(b"A   \x01", &mut [9; 40]).0, length);
        assert_eq!(self.clone().put(b"A   \x01", b"x").0, refusal);
        assert_eq!(self.clone().delete(b"A   \x01").0, refusal);
        // A malformed path is met after the image's fault.
        assert_eq!(self.clone().put(b"bad", b"x").0, refusal);
        for path in [&b"A   "[..], b"bad"] {
            assert_eq!(self.clone().make_directory(path).0, refusal);
            assert_eq!(self.clone().remove_directory(path).0, refusal);
        }
        let writes = no_writes(number, page);
        for allowed in [0, 1, u32::MAX] {
            let put = self.clone().careful_put(b"A   \x01", b"x", allowed).0;
            let delete = self.clone().careful_delete(b"A   \x01", allowed).0;
            assert_eq!((put, delete), (writes, writes));
        }
        if number != 13 {
            assert_eq!(self.clone().mend().0, not_mended(number, page));
        }
        assert_eq!(self.gather().0, refusal);
    }
}

/// Prints the seed if the test fails while it is alive.
pub struct Seed(pub u64);

impl Drop for Seed {
    fn drop(&mut self) {
        if std::thread::panicking() {
            eprintln!("failed with seed {}", self.0);
        }
    }
}

/// Runs so many cases, each from a seed of its own.
pub fn run_seeds(seeds: Range<u64>, mut case: impl FnMut(u64, &mut Rng)) {
    println!("seeds {seeds:?}");
    for seed in seeds {
        let _seed = Seed(seed);
        case(seed, &mut Rng::new(seed));
    }
}

/// Counts by label, so that a test can demand that every kind of case was met.
#[derive(Debug, Default)]
pub struct Tally {
    counts: BTreeMap<String, u64>,
}

impl Tally {
    /// Counts a label once more.
    pub fn add(&mut self, label: impl Into<String>) {
        self.add_times(label, 1);
    }

    /// Counts a label so many times more.
    pub fn add_times(&mut self, label: impl Into<String>, times: u32) {
        *self.counts.entry(label.into()).or_default() += u64::from(times);
    }

    /// Counts every label as many times more as another tally has counted it.
    pub fn add_all(&mut self, other: &Tally) {
        for (label, count) in &other.counts {
            *self.counts.entry(label.clone()).or_default() += count;
        }
    }

    /// How many times a label was counted.
    pub fn count(&self, label: &str) -> u64 {
        self.counts.get(label).copied().unwrap_or(0)
    }

    /// Demands that each label was counted at least so many times.
    pub fn demand(&self, least: u32, labels: &[&str]) {
        for &label in labels {
            let count = self.count(label);
            let enough = count >= u64::from(least);
            assert!(enough, "{label}: {count} times, {self:#?}");
        }
    }

    /// Demands that a call answered each of these numbers at least so many times.
    pub fn demand_numbers(&self, call: &str, least: u32, numbers: impl IntoIterator<Item = u32>) {
        for number in numbers {
            self.demand(least, &[&format!("{call} {number}")]);
        }
    }

    /// Prints all counts.
    pub fn print(&self) {
        for (label, count) in &self.counts {
            println!("{count:8} {label}");
        }
    }

    /// The numbers that a call answered, each with its count.
    pub fn numbers(&self, call: &str) -> Vec<(u32, u64)> {
        let counted = (0..=25).map(|number| (number, self.count(&format!("{call} {number}"))));
        counted.filter(|(_, count)| *count > 0).collect()
    }
}
