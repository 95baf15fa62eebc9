//! The office's question when a page of a button has gone bad: whose is it, and how many pages and data bytes of that file lie after it?
//!
//!     tools/build
//!     cargo run --offline --manifest-path rust/Cargo.toml --example bad_page -- samples/bad-page-before.dump samples/bad-page.dump
//!
//! A dump with a bad page is refused with 2 at that page, and its owner table is all 0: it says nothing of any page. So the answer comes from the records
//! of the last dump of the same button that was accepted, which is the first argument; the dump with the bad page is the second. `tests/c/bad_page.c` is
//! the same program in C.

use std::env;
use std::fs;
use std::process::ExitCode;

use owfs::{check, entries, owner_of, owner_table, Geometry, Kind, Owner, Reason, Record};

/// The bytes of a dump's header: page length (2), page count (2), offset of page 0 (4), low byte first.
const HEADER: usize = 8;

/// A dump of a button: its geometry and its image.
struct Dump<'a> {
    geometry: Geometry,
    image: &'a [u8],
}

/// A page of an accepted dump: its record, and what lies after it in its owner's chain.
struct BadPage {
    page: u32,
    record: Record,
    /// The pages of the owner's chain, this one too.
    chain: u32,
    pages_after: u32,
    bytes_after: u32,
}

/// A number, low byte first.
fn number(bytes: &[u8]) -> u32 {
    let high_first = bytes.iter().rev();
    high_first.fold(0, |number, &byte| number << 8 | u32::from(byte))
}

impl<'a> Dump<'a> {
    /// The dump in these bytes; none if there is no header, or no image at its offset.
    fn of(bytes: &'a [u8]) -> Option<Dump<'a>> {
        let header = bytes.get(..HEADER)?;
        let offset = number(&header[4..8]) as usize;
        let image = bytes.get(offset..).filter(|_| offset >= HEADER)?;
        let geometry = Geometry::new(number(&header[..2]), number(&header[2..4]));
        Some(Dump { geometry, image })
    }

    /// The bytes of a page.
    fn page(&self, page: u32) -> &[u8] {
        let length = self.geometry.page_length as usize;
        let start = length * page as usize;
        &self.image[start..start + length]
    }

    /// The data bytes of a page: its length byte counts them and the pointer to the next page, of one byte, or of two from 257 pages on.
    fn data_bytes(&self, page: u32) -> u32 {
        let pointer = if self.geometry.page_count <= 256 {
            1
        } else {
            2
        };
        u32::from(self.page(page)[0]) - pointer
    }

    /// What the records of this dump, which is accepted, tell of a page: the pages after it are those of the same owner with a greater place.
    fn bad_page(&self, owners: &[u8], page: u32) -> Option<BadPage> {
        let mut bad = BadPage {
            page,
            record: owner_of(owners, page)?,
            chain: 0,
            pages_after: 0,
            bytes_after: 0,
        };
        for other in 0..self.geometry.page_count {
            let record = owner_of(owners, other)?;
            if record.owner != bad.record.owner {
                continue;
            }
            bad.chain += 1;
            if record.place > bad.record.place {
                bad.pages_after += 1;
                bad.bytes_after += self.data_bytes(other);
            }
        }
        Some(bad)
    }

    /// The file or directory at a position in walk order, by its path.
    fn entry_words(&self, position: u32) -> Option<String> {
        let mut owners = owner_table(self.geometry.page_count);
        let mut all = entries(self.geometry, self.image, &mut owners);
        let listed = all.nth(position as usize)?.ok()?;
        let above: String = listed
            .directories
            .iter()
            .map(|name| format!("{name}/"))
            .collect();
        let (name, extension) = (listed.entry.name, listed.entry.extension);
        Some(match listed.entry.kind() {
            Kind::File => format!("file {above}{name}.{extension:03}"),
            Kind::Directory => format!("directory {above}{name}"),
        })
    }

    /// What these records tell of a bad page, in words. A page without an owner was given out after this dump.
    fn words(&self, bad: &BadPage) -> Option<String> {
        let BadPage { page, chain, .. } = bad;
        let owner = match bad.record.owner {
            Owner::Root => String::from("the root directory"),
            Owner::Bitmap => String::from("the bitmap file"),
            Owner::Entry(position) => self.entry_words(position)?,
            Owner::Free => {
                return Some(format!(
                    "page {page} was in no chain when the last dump was accepted, but is now: nothing is known of it\n"
                ))
            }
        };
        let place = bad.record.place;
        let (pages, bytes) = (bad.pages_after, bad.bytes_after);
        Some(format!(
            "page {page} has place {place} of {chain} in {owner}\nafter it pages {pages} bytes {bytes}\n"
        ))
    }

    /// The number of pages but this one that differ from another dump's.
    fn differing(&self, other: &Dump, page: u32) -> usize {
        let pages = (0..self.geometry.page_count).filter(|&one| one != page);
        pages
            .filter(|&one| self.page(one) != other.page(one))
            .count()
    }
}

/// The answer, from the bytes of the last accepted dump and of the one with a bad page; or why there is none.
pub fn answer(last: &[u8], bad: &[u8]) -> Result<String, String> {
    let last = Dump::of(last).ok_or("the last accepted dump is no dump\n")?;
    let bad = Dump::of(bad).ok_or("the dump with the bad page is no dump\n")?;
    let mut owners = owner_table(bad.geometry.page_count);
    let Err(refusal) = check(bad.geometry, bad.image, &mut owners) else {
        return Ok(String::from("accepted: no page in use is bad\n"));
    };
    // The table of a refused dump is all 0: it is not looked at.
    let refused = format!("refused {} page {}\n", refusal.number, refusal.page);
    if refusal.reason() != Reason::Packet {
        return Err(refused + "this is not the number of a bad page\n");
    }
    if last.geometry != bad.geometry {
        return Err(refused + "the dumps are not of one button\n");
    }
    if let Err(other) = check(last.geometry, last.image, &mut owners) {
        let (number, page) = (other.number, other.page);
        return Err(format!(
            "{refused}the last dump is refused {number} page {page}: it has no records\n"
        ));
    }
    let told = last.bad_page(&owners, refusal.page);
    let words = told.and_then(|told| last.words(&told));
    let words = words.ok_or("the page has no record\n")?;
    let differing = last.differing(&bad, refusal.page);
    Ok(format!("{refused}{words}{}", differing_words(differing)))
}

/// Whether the answer is of the button as it is, in words: it is, if nothing but the bad page has changed.
fn differing_words(differing: usize) -> String {
    match differing {
        0 => String::from("no other page differs\n"),
        _ => format!(
            "other pages that differ {differing}: written since, or bad too; the figures are those of the last accepted dump\n"
        ),
    }
}

/// The bytes of a file, or why there are none.
fn file(name: &str) -> Result<Vec<u8>, String> {
    fs::read(name).map_err(|error| format!("{name}: {error}\n"))
}

fn main() -> ExitCode {
    let names: Vec<String> = env::args().skip(1).collect();
    let answered = match &names[..] {
        [last, bad] => file(last).and_then(|last| file(bad).and_then(|bad| answer(&last, &bad))),
        _ => Err(String::from(
            "two arguments: the last accepted dump, the dump with the bad page\n",
        )),
    };
    match answered {
        Ok(text) => {
            print!("{text}");
            ExitCode::SUCCESS
        }
        Err(text) => {
            print!("{text}");
            ExitCode::FAILURE
        }
    }
}
