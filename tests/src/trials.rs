//! The calls with a generated image, by the library and the second program alike. Where an image is known by construction, so is the answer.

use crate::generators::{
    counted_owner_bytes, files, is_enough, labelled_local, labelled_out_bytes, labelled_position,
    random_directory_path, random_path, Case, Made, Wanted,
};
use crate::plans::{formatted_plan, may_be_local, overlaid};
use crate::{answer, both, mended, not_mended, table_bytes, Button, Tally};
use referee::geometry::Geometry;
use referee::rng::Rng;
use referee::{Answer, Length, Listing, Writes};

/// The calls with one image, and the counts of what was met.
pub struct Trial<'a> {
    pub case: &'a Case,
    pub rng: &'a mut Rng,
    pub tally: &'a mut Tally,
}

impl Trial<'_> {
    /// Every call: those that only read, a gather, a format, a mend, some puts and deletes, plain and careful, and some directories made and removed,
    /// each of a copy of the image.
    pub fn all_calls(&mut self) {
        self.reads();
        self.gather();
        self.format();
        self.mend();
        for _ in 0..2 {
            self.put();
            self.delete();
            self.careful_put();
            self.careful_delete();
            self.make_directory();
            self.remove_directory();
        }
    }

    /// One check, and some listings and reads.
    pub fn reads(&mut self) {
        self.check();
        let few = self.case.built.entries.len() <= 25;
        if self.case.made == Made::Sound && few && self.rng.chance(10) {
            return self.all_entries();
        }
        for _ in 0..3 {
            let (label, position) = labelled_position(self.case.built.entries.len(), self.rng);
            self.tally.add(label);
            self.list(position);
        }
        for _ in 0..3 {
            let wanted = random_path(&self.case.built, self.rng);
            self.read(&wanted);
        }
    }

    /// Lists every position and reads every file.
    fn all_entries(&mut self) {
        let entries = &self.case.built.entries;
        for position in 0..=entries.len() {
            self.list(position as u32);
        }
        for entry in entries {
            self.read(&Wanted {
                label: "path of each entry",
                path: entry.path.clone(),
                file_bytes: entry.bytes.len(),
            });
        }
    }

    /// Bytes for an owner table.
    fn owner_bytes(&mut self) -> usize {
        counted_owner_bytes(self.case.button.page_count, self.rng, self.tally)
    }

    /// Whether the image is known to be accepted with an owner table of so many bytes.
    fn known_accepted(&self, owner_bytes: usize) -> bool {
        self.case.made == Made::Sound && self.case.known_refusal(owner_bytes).is_none()
    }

    /// Demands a known refusal.
    fn demand(&self, owner_bytes: usize, told: Answer) {
        if let Some(refusal) = self.case.known_refusal(owner_bytes) {
            assert_eq!(told, refusal, "known by construction");
        }
    }

    /// A check.
    fn check(&mut self) {
        let owner_bytes = self.owner_bytes();
        let told = both::check(&self.case.button, owner_bytes, self.rng);
        self.tally.add(format!("check {}", told.number));
        self.demand(owner_bytes, answer(told.number, told.page));
        if self.known_accepted(owner_bytes) {
            assert_eq!(told, self.case.built.totals, "known by construction");
        }
    }

    /// A listing.
    fn list(&mut self, position: u32) {
        let owner_bytes = self.owner_bytes();
        let told = both::list(&self.case.button, owner_bytes, position, self.rng);
        self.tally.add(format!("list {}", told.number));
        self.demand(owner_bytes, answer(told.number, told.page));
        if self.known_accepted(owner_bytes) {
            let entry = self.case.built.entries.get(position as usize);
            let expected = entry.map_or(absent(), |entry| entry.listing);
            assert_eq!(told, expected, "known by construction, position {position}");
        }
    }

    /// A read.
    fn read(&mut self, wanted: &Wanted) {
        let owner_bytes = self.owner_bytes();
        let (out_label, out_bytes) = labelled_out_bytes(wanted.file_bytes, self.rng);
        let (told, bytes) = both::read_bytes(
            &self.case.button,
            owner_bytes,
            &wanted.path,
            out_bytes,
            self.rng,
        );
        self.tally.add(format!("read {}", told.number));
        self.demand(owner_bytes, answer(told.number, told.page));
        if self.known_accepted(owner_bytes) {
            self.tally.add(out_label);
            self.tally.add(format!("{}: {}", wanted.label, told.number));
            self.demand_file(&wanted.path, out_bytes, told, &bytes);
        }
    }

    /// Demands the answer of a read that the plan gives: the file's bytes, 18, or 14 or 15 if there is no such file.
    fn demand_file(&self, path: &[u8], out_bytes: usize, told: Length, bytes: &[u8]) {
        let mut files = files(&self.case.built).into_iter();
        let Some(file) = files.find(|file| file.path == path) else {
            let missing = answer(told.number, told.page);
            assert!(missing == answer(14, 0) || missing == answer(15, 0));
            return;
        };
        let length = file.bytes.len();
        if length > out_bytes {
            assert_eq!(answer(told.number, told.page), answer(18, 0));
        } else {
            assert_eq!((told.number, told.length as usize), (0, length));
            assert_eq!(bytes, file.bytes);
        }
    }

    /// Bytes for a put.
    fn file_bytes(&mut self) -> Vec<u8> {
        let length = [0, self.rng.below(60), self.rng.below(3_000)][self.rng.below(3)];
        self.rng.bytes(length)
    }

    /// A put.
    pub fn put(&mut self) {
        let path = random_path(&self.case.built, self.rng).path;
        let bytes = self.file_bytes();
        let mut button = self.case.button.clone();
        let owner_bytes = self.owner_bytes();
        let told = both::put(&mut button, owner_bytes, &path, &bytes, self.rng);
        self.tally.add("puts");
        self.tally.add(format!("put {}", told.number));
        self.demand(owner_bytes, told);
    }

    /// A delete.
    pub fn delete(&mut self) {
        let path = random_path(&self.case.built, self.rng).path;
        let mut button = self.case.button.clone();
        let owner_bytes = self.owner_bytes();
        let told = both::delete(&mut button, owner_bytes, &path, self.rng);
        self.tally.add(format!("delete {}", told.number));
        self.demand(owner_bytes, told);
    }

    /// A directory made.
    fn make_directory(&mut self) {
        let path = random_directory_path(&self.case.built, self.rng);
        let mut button = self.case.button.clone();
        let owner_bytes = self.owner_bytes();
        let told = both::make_directory(&mut button, owner_bytes, &path, self.rng);
        self.tally.add(format!("make directory {}", told.number));
        self.demand(owner_bytes, told);
    }

    /// A directory removed.
    fn remove_directory(&mut self) {
        let path = random_directory_path(&self.case.built, self.rng);
        let mut button = self.case.button.clone();
        let owner_bytes = self.owner_bytes();
        let told = both::remove_directory(&mut button, owner_bytes, &path, self.rng);
        self.tally.add(format!("remove directory {}", told.number));
        self.demand(owner_bytes, told);
    }

    /// A careful put.
    fn careful_put(&mut self) {
        let path = random_path(&self.case.built, self.rng).path;
        let bytes = self.file_bytes();
        let allowed = random_allowed(self.rng);
        let mut button = self.case.button.clone();
        let owner_bytes = self.owner_bytes();
        let told = both::careful_put(&mut button, owner_bytes, &path, &bytes, allowed, self.rng);
        self.demand_writes("careful put", owner_bytes, told, allowed);
    }

    /// A careful delete.
    fn careful_delete(&mut self) {
        let path = random_path(&self.case.built, self.rng).path;
        let allowed = random_allowed(self.rng);
        let mut button = self.case.button.clone();
        let owner_bytes = self.owner_bytes();
        let told = both::careful_delete(&mut button, owner_bytes, &path, allowed, self.rng);
        self.demand_writes("careful delete", owner_bytes, told, allowed);
    }

    /// Counts the answer of a careful call; a known refusal has no writes, and no more are made than allowed.
    fn demand_writes(&mut self, call: &str, owner_bytes: usize, told: Writes, allowed: u32) {
        self.tally.add(format!("{call} {}", told.number));
        self.demand(owner_bytes, answer(told.number, told.page));
        assert!(told.made <= allowed && (told.left == 0 || told.made == allowed));
        if told.number != 0 {
            assert_eq!((told.made, told.left), (0, 0), "no writes in a refusal");
        }
    }

    /// A mend: it refuses what the check refuses, but for marks that no chain has.
    fn mend(&mut self) {
        let mut button = self.case.button.clone();
        let owner_bytes = self.owner_bytes();
        let told = both::mend(&mut button, owner_bytes, self.rng);
        self.tally.add(format!("mend {}", told.number));
        match self.case.known_refusal(owner_bytes) {
            Some(refusal) if refusal.number == 13 => {
                assert!(told.cleared > 0 || answer(told.number, told.page) == refusal);
            }
            Some(refusal) => assert_eq!(told, not_mended(refusal.number, refusal.page)),
            None if self.known_accepted(owner_bytes) => assert_eq!(told, mended(0)),
            None => {}
        }
    }

    /// A gather into a copy that is mostly as long as the image; another length is 1 before all else.
    fn gather(&mut self) {
        let owner_bytes = self.owner_bytes();
        let image_bytes = self.case.button.image.len();
        let copy_bytes = random_copy_bytes(image_bytes, self.rng);
        let (told, copy) = both::gather(&self.case.button, copy_bytes, owner_bytes, self.rng);
        self.tally.add(format!("gather {}", told.number));
        if copy_bytes != image_bytes {
            assert_eq!(told, answer(1, 0), "a copy of {copy_bytes} bytes");
            return;
        }
        self.demand(owner_bytes, told);
        if self.known_accepted(owner_bytes) {
            let mut button = self.case.button.clone();
            button.image = copy;
            let totals = both::check(&button, owner_bytes, self.rng);
            let before = &self.case.built.totals;
            assert_eq!(told, answer(0, 0), "known by construction");
            assert_eq!((totals.number, totals.files), (0, before.files));
            assert_eq!(totals.directories, before.directories);
            assert!(totals.used <= before.used, "pages in use of the copy");
        }
    }

    /// A format.
    fn format(&mut self) {
        let (label, local) = labelled_local(self.rng);
        self.tally.add(label);
        let mut button = self.case.button.clone();
        let owner_bytes = self.owner_bytes();
        let told = format_known(&mut button, owner_bytes, local, self.rng);
        self.tally.add(format!("format {}", told.number));
    }
}

/// A number of writes to allow: often few, sometimes none or any number.
pub fn random_allowed(rng: &mut Rng) -> u32 {
    match rng.below(8) {
        0 => 0,
        1 => u32::MAX,
        2 => rng.next_u64() as u32 >> rng.below(32),
        _ => rng.below(9) as u32,
    }
}

/// The bytes of a copy to gather into: mostly those of the image, sometimes some more or fewer, or any number.
pub fn random_copy_bytes(image_bytes: usize, rng: &mut Rng) -> usize {
    match rng.below(16) {
        0 => image_bytes.saturating_sub(1),
        1 => image_bytes + 1,
        2 => rng.below(2 * image_bytes + 2),
        _ => image_bytes,
    }
}

/// The answer of a listing at or past the end.
pub fn absent() -> Listing {
    Listing {
        number: 15,
        ..Listing::default()
    }
}

/// Demands a format's answer and image by the plan of a formatted image, and gives the answer.
pub fn format_known(button: &mut Button, owner_bytes: usize, local: u32, rng: &mut Rng) -> Answer {
    let before = button.clone();
    let told = both::format(button, owner_bytes, local, rng);
    let (p, n) = (button.page_length, button.page_count);
    let fits = Geometry::new(p, n).is_some_and(|known| known.image_length() == before.image.len());
    if !fits || !is_enough(n, owner_bytes) {
        assert_eq!(told, answer(1, 0), "arguments");
    } else if local != 0 && !may_be_local(n) {
        assert_eq!(told, answer(4, 0), "local bitmap");
    } else {
        assert_eq!(told, answer(0, 0), "known by construction");
        let formatted = formatted_plan(p, n, local != 0).build();
        let expected = overlaid(&before, &formatted);
        assert!(button.image == expected, "known by construction");
        let totals = both::check(button, table_bytes(n), rng);
        assert_eq!(totals, formatted.totals);
    }
    told
}
