//! The Rust crate over the library: results, entries, paths, and every byte of the lent memory.
//!
//! Programs: the library, by the functions of the crate `owfs`, and the second program, whose answers and bytes these must give. The entries in walk
//! order and the paths are compared with the plan of an image and with the rule for paths instead. The archive is made by `tools/build`.

use common::generators::{
    any_case, counted_owner_bytes, deep_image, faulty_case, files, labelled_out_bytes,
    labelled_position, random_directory_path, random_path, sound_case, Case, Wanted,
};
use common::plans::{is_directory_path, is_path};
use common::reports::{random_files, random_knee, random_limit, random_margin, weighed_files};
use common::trials::{random_allowed, random_copy_bytes};
use common::{run_seeds, Button, Tally};
use owfs::{
    Bitmap, Entry, Geometry, Kind, Listed, Name, Owner, PathError, Record, Refusal, Totals,
    Weighting, Writes,
};
use referee::builder::plan::{Built, BuiltEntry, ChainOf};
use referee::builder::random::random_name;
use referee::rng::Rng;

/// The result that the wrapper gives for a number and a page, and what is told besides.
fn result<T>(number: u32, page: u32, told: T) -> Result<T, Refusal> {
    match number {
        0 => Ok(told),
        _ => Err(Refusal { number, page }),
    }
}

/// The result that the wrapper gives for the answer of a careful call.
fn writes(told: referee::Writes) -> Result<Writes, Refusal> {
    let writes = Writes {
        made: told.made,
        left: told.left == 1,
    };
    result(told.number, told.page, writes)
}

/// The stored name of an entry.
fn stored(name: Name) -> u32 {
    u32::from_le_bytes(name.stored())
}

/// The fields of an entry as the second program's listing has them.
fn fields(entry: &Entry) -> [u32; 7] {
    [
        entry.level,
        stored(entry.name),
        u32::from(entry.extension),
        u32::from(entry.attribute),
        entry.start,
        entry.pages,
        entry.length,
    ]
}

/// An image, its owner tables for both, and the counts of what was met.
struct Pair<'a> {
    geometry: Geometry,
    image: Vec<u8>,
    owners: Vec<u8>,
    expected_image: Vec<u8>,
    expected_owners: Vec<u8>,
    tally: &'a mut Tally,
}

impl<'a> Pair<'a> {
    /// Equal copies of the image, and owner tables of equal random bytes.
    fn new(button: &Button, rng: &mut Rng, tally: &'a mut Tally) -> Pair<'a> {
        let length = counted_owner_bytes(button.page_count, rng, tally);
        let owners = rng.bytes(length);
        Pair {
            geometry: Geometry::new(button.page_length, button.page_count),
            image: button.image.clone(),
            expected_image: button.image.clone(),
            expected_owners: owners.clone(),
            owners,
            tally,
        }
    }

    /// Demands equal images and owner tables, and counts the number.
    fn same(&mut self, call: &str, number: u32) {
        assert!(self.image == self.expected_image, "image after {call}");
        assert!(self.owners == self.expected_owners, "owners after {call}");
        self.tally.add(format!("{call} {number}"));
    }

    /// A check.
    fn check(&mut self) {
        let (p, n) = (self.geometry.page_length, self.geometry.page_count);
        let expected = referee::check(p, n, &self.expected_image, &mut self.expected_owners);
        let totals = Totals {
            used: expected.used,
            files: expected.files,
            directories: expected.directories,
        };
        let told = owfs::check(self.geometry, &self.image, &mut self.owners);
        assert_eq!(told, result(expected.number, expected.page, totals));
        self.same("check", expected.number);
    }

    /// A listing.
    fn list(&mut self, position: u32) {
        let (p, n) = (self.geometry.page_length, self.geometry.page_count);
        let (image, owners) = (&self.expected_image, &mut self.expected_owners);
        let expected = referee::list(p, n, image, owners, position);
        let listing = [
            expected.level,
            expected.name,
            expected.extension,
            expected.attribute,
            expected.start,
            expected.pages,
            expected.length,
        ];
        let told = owfs::list(self.geometry, &self.image, &mut self.owners, position);
        let told = told.map(|entry| fields(&entry));
        assert_eq!(told, result(expected.number, expected.page, listing));
        self.same("list", expected.number);
    }

    /// A read into an output of so many bytes, and one into a vector.
    fn read(&mut self, path: &[u8], out_bytes: usize) {
        let (p, n) = (self.geometry.page_length, self.geometry.page_count);
        let mut expected_out = vec![0x6B; out_bytes];
        let mut out = expected_out.clone();
        let (image, owners) = (&self.expected_image, &mut self.expected_owners);
        let expected = referee::read(p, n, image, path, &mut expected_out, owners);
        let told = owfs::read(self.geometry, &self.image, path, &mut out, &mut self.owners);
        let length = expected.length as usize;
        assert_eq!(told, result(expected.number, expected.page, length));
        assert!(out == expected_out, "output");
        self.same("read", expected.number);
        let told = owfs::read_to_vec(self.geometry, &self.image, path, &mut self.owners);
        if expected.number != 18 {
            let bytes = expected_out[..length].to_vec();
            assert_eq!(told, result(expected.number, expected.page, bytes));
        }
        self.same(
            "read to a vector",
            told.map_or_else(|refusal| refusal.number, |_| 0),
        );
    }

    /// A format.
    fn format(&mut self, bitmap: Bitmap) {
        let (p, n) = (self.geometry.page_length, self.geometry.page_count);
        let (image, owners) = (&mut self.expected_image, &mut self.expected_owners);
        let local = u32::from(bitmap == Bitmap::Local);
        let expected = referee::format(p, n, image, owners, local);
        let told = owfs::format(self.geometry, &mut self.image, &mut self.owners, bitmap);
        assert_eq!(told, result(expected.number, expected.page, ()));
        self.same("format", expected.number);
    }

    /// A put.
    fn put(&mut self, path: &[u8], bytes: &[u8]) {
        let (p, n) = (self.geometry.page_length, self.geometry.page_count);
        let (image, owners) = (&mut self.expected_image, &mut self.expected_owners);
        let expected = referee::put(p, n, image, path, bytes, owners);
        let (image, owners) = (&mut self.image, &mut self.owners);
        let told = owfs::put(self.geometry, image, path, bytes, owners);
        assert_eq!(told, result(expected.number, expected.page, ()));
        self.same("put", expected.number);
    }

    /// A delete.
    fn delete(&mut self, path: &[u8]) {
        let (p, n) = (self.geometry.page_length, self.geometry.page_count);
        let (image, owners) = (&mut self.expected_image, &mut self.expected_owners);
        let expected = referee::delete(p, n, image, path, owners);
        let told = owfs::delete(self.geometry, &mut self.image, path, &mut self.owners);
        assert_eq!(told, result(expected.number, expected.page, ()));
        self.same("delete", expected.number);
    }

    /// A directory made.
    fn make_directory(&mut self, path: &[u8]) {
        let (p, n) = (self.geometry.page_length, self.geometry.page_count);
        let (image, owners) = (&mut self.expected_image, &mut self.expected_owners);
        let expected = referee::make_directory(p, n, image, path, owners);
        let told = owfs::make_directory(self.geometry, &mut self.image, path, &mut self.owners);
        assert_eq!(told, result(expected.number, expected.page, ()));
        self.same("make directory", expected.number);
    }

    /// A directory removed.
    fn remove_directory(&mut self, path: &[u8]) {
        let (p, n) = (self.geometry.page_length, self.geometry.page_count);
        let (image, owners) = (&mut self.expected_image, &mut self.expected_owners);
        let expected = referee::remove_directory(p, n, image, path, owners);
        let told = owfs::remove_directory(self.geometry, &mut self.image, path, &mut self.owners);
        assert_eq!(told, result(expected.number, expected.page, ()));
        self.same("remove directory", expected.number);
    }

    /// A careful put.
    fn careful_put(&mut self, path: &[u8], bytes: &[u8], allowed: u32) {
        let (p, n) = (self.geometry.page_length, self.geometry.page_count);
        let (image, owners) = (&mut self.expected_image, &mut self.expected_owners);
        let expected = referee::careful_put(p, n, image, path, bytes, owners, allowed);
        let (image, owners) = (&mut self.image, &mut self.owners);
        let told = owfs::careful_put(self.geometry, image, path, bytes, owners, allowed);
        assert_eq!(told, writes(expected));
        self.same("careful put", expected.number);
    }

    /// A careful delete.
    fn careful_delete(&mut self, path: &[u8], allowed: u32) {
        let (p, n) = (self.geometry.page_length, self.geometry.page_count);
        let (image, owners) = (&mut self.expected_image, &mut self.expected_owners);
        let expected = referee::careful_delete(p, n, image, path, owners, allowed);
        let (image, owners) = (&mut self.image, &mut self.owners);
        let told = owfs::careful_delete(self.geometry, image, path, owners, allowed);
        assert_eq!(told, writes(expected));
        self.same("careful delete", expected.number);
    }

    /// A mend.
    fn mend(&mut self) {
        let (p, n) = (self.geometry.page_length, self.geometry.page_count);
        let (image, owners) = (&mut self.expected_image, &mut self.expected_owners);
        let expected = referee::mend(p, n, image, owners);
        let told = owfs::mend(self.geometry, &mut self.image, &mut self.owners);
        assert_eq!(
            told,
            result(expected.number, expected.page, expected.cleared)
        );
        self.same("mend", expected.number);
        if expected.cleared > 0 {
            self.tally.add("marks cleared");
        }
    }

    /// A gather into a copy of so many bytes.
    fn gather(&mut self, copy_bytes: usize) {
        let (p, n) = (self.geometry.page_length, self.geometry.page_count);
        let mut expected_copy = vec![0x6B; copy_bytes];
        let mut copy = expected_copy.clone();
        let (image, owners) = (&self.expected_image, &mut self.expected_owners);
        let expected = referee::gather(p, n, image, &mut expected_copy, owners);
        let told = owfs::gather(self.geometry, &self.image, &mut copy, &mut self.owners);
        assert_eq!(told, result(expected.number, expected.page, ()));
        assert!(copy == expected_copy, "copy");
        self.same("gather", expected.number);
    }

    /// Every call, the format last.
    fn all_calls(&mut self, built: &Built, rng: &mut Rng) {
        self.check();
        self.gather(random_copy_bytes(self.image.len(), rng));
        self.mend();
        self.list(labelled_position(built.entries.len(), rng).1);
        let Wanted {
            path, file_bytes, ..
        } = random_path(built, rng);
        self.read(&path, labelled_out_bytes(file_bytes, rng).1);
        for _ in 0..2 {
            let length = [0, rng.below(60), rng.below(3_000)][rng.below(3)];
            let path = random_path(built, rng).path;
            self.put(&path, &rng.bytes(length));
            self.delete(&random_path(built, rng).path);
            let path = random_path(built, rng).path;
            self.careful_put(&path, &rng.bytes(length), random_allowed(rng));
            self.mend();
            self.careful_delete(&random_path(built, rng).path, random_allowed(rng));
            self.mend();
            let path = random_directory_path(built, rng);
            self.make_directory(&path);
            self.remove_directory(&random_directory_path(built, rng));
            if rng.chance(50) {
                self.remove_directory(&path);
            }
        }
        self.format([Bitmap::Local, Bitmap::File][rng.below(2)]);
        self.check();
    }
}

/// Demands that every call answered each of its numbers.
fn demand_every_number(tally: &Tally) {
    tally.demand_numbers("check", 20, 0..=13);
    tally.demand_numbers("list", 20, (0..=13).chain([15]));
    tally.demand_numbers("read", 20, (0..=15).chain([18]));
    tally.demand_numbers("read to a vector", 20, 0..=15);
    tally.demand_numbers("format", 20, [0, 1, 4]);
    tally.demand_numbers("put", 20, (0..=17).chain([22]));
    tally.demand_numbers("delete", 20, (0..=16).chain([22]));
    tally.demand_numbers("careful put", 20, (0..=17).chain([22]));
    tally.demand_numbers("careful delete", 20, (0..=16).chain([22]));
    tally.demand_numbers("make directory", 20, (0..=15).chain([17, 21, 22]));
    tally.demand_numbers("remove directory", 20, (0..=15).chain([20, 22]));
    tally.demand_numbers("mend", 20, 0..=13);
    tally.demand_numbers("gather", 20, 0..=13);
    tally.demand(100, &["marks cleared"]);
}

/// Sound images, images with faults, arguments that do not fit, any bytes.
#[test]
fn results_are_the_second_programs() {
    let mut tally = Tally::default();
    run_seeds(0xD000_0000..0xD000_0000 + 4_000, |seed, rng| {
        let case: Case = match seed % 8 {
            0..=3 => sound_case(rng),
            4..=6 => faulty_case(seed / 8, rng),
            _ => any_case(rng),
        };
        let mut pair = Pair::new(&case.button, rng, &mut tally);
        pair.all_calls(&case.built, rng);
    });
    tally.print();
    demand_every_number(&tally);
}

/// Demands an entry that was listed, with the names that lead to it, its path and what it is.
fn demand_listed(listed: &Listed, known: &BuiltEntry) {
    let listing = &known.listing;
    let known_fields = [
        listing.level,
        listing.name,
        listing.extension,
        listing.attribute,
        listing.start,
        listing.pages,
        listing.length,
    ];
    assert_eq!(fields(&listed.entry), known_fields);
    let mut names: Vec<u8> = listed
        .directories
        .iter()
        .flat_map(|name| name.stored())
        .collect();
    names.extend(listed.entry.name.stored());
    let attribute = listing.attribute == 1;
    let flags = (listed.entry.is_read_only(), listed.entry.is_hidden());
    if listing.extension == 127 {
        assert_eq!(listed.entry.kind(), Kind::Directory);
        assert_eq!(names, known.path);
        assert_eq!(listed.path(), None);
        assert_eq!(listed.directory_path().as_ref(), Some(&known.path));
        assert_eq!(flags, (false, attribute));
    } else {
        assert_eq!(listed.entry.kind(), Kind::File);
        assert_eq!(listed.path().as_ref(), Some(&known.path));
        assert_eq!(listed.directory_path(), None);
        assert_eq!(flags, (attribute, false));
    }
}

/// Who has the pages of a chain, by the plan.
fn known_owner(built: &Built, chain: usize) -> Owner {
    let position = built.entries.iter().position(|entry| entry.chain == chain);
    match (built.chains[chain].of, position) {
        (ChainOf::Root, _) => Owner::Root,
        (ChainOf::Bitmap, _) => Owner::Bitmap,
        (_, Some(position)) => Owner::Entry(position as u32),
        (_, None) => panic!("a chain without an entry"),
    }
}

/// Demands the owner and the place of each page by the plan; pages of no chain are free, and there is no record past the last page.
fn demand_records(built: &Built, owners: &[u8]) {
    let free = Record {
        owner: Owner::Free,
        place: 0,
    };
    let mut known = vec![free; built.page_count as usize];
    for (chain, pages) in built.chains.iter().enumerate() {
        let owner = known_owner(built, chain);
        for (place, &page) in (0..).zip(&pages.pages) {
            known[page] = Record { owner, place };
        }
    }
    for (page, &record) in (0..).zip(&known) {
        assert_eq!(owfs::owner_of(owners, page), Some(record), "page {page}");
    }
    assert_eq!(owfs::owner_of(owners, built.page_count), None);
}

/// All entries of nested images in walk order, and the bytes of every file by its path.
#[test]
fn entries_come_in_walk_order_with_their_paths() {
    let mut entries = 0;
    run_seeds(0xD100_0000..0xD100_0000 + 120, |_, rng| {
        let built = deep_image(rng);
        let geometry = Geometry::new(built.page_length, built.page_count);
        let mut owners = owfs::owner_table(built.page_count);
        let all: Result<Vec<Listed>, Refusal> =
            owfs::entries(geometry, &built.image, &mut owners).collect();
        let all = all.expect("an accepted image");
        assert_eq!(owners, built.owners);
        demand_records(&built, &owners);
        assert_eq!(all.len(), built.entries.len());
        for (listed, known) in all.iter().zip(&built.entries) {
            demand_listed(listed, known);
            entries += 1;
        }
        for file in files(&built) {
            let bytes = owfs::read_to_vec(geometry, &built.image, &file.path, &mut owners);
            assert_eq!(bytes.as_ref(), Ok(&file.bytes));
        }
    });
    assert!(entries > 2_000, "{entries} entries");
}

/// What a report tells, as the second program has it.
fn demand_report(report: &owfs::Report, expected: &referee::Report) {
    let greatest = (expected.has_greatest == 1).then_some(expected.greatest);
    assert_eq!(report.greatest(), greatest);
    assert_eq!(report.files(), expected.files);
    assert_eq!(report.cycles(), expected.cycles);
    assert_eq!(report.near_misses(), expected.near);
    assert_eq!(report.limit(), expected.limit);
    assert_eq!(report.margin(), expected.margin);
    assert_eq!(report.weight(), expected.weight);
}

/// The weighting of a report, and the version and K that it stands for.
fn random_weighting(rng: &mut Rng) -> (Option<Weighting>, u32, u32) {
    let knee = random_knee(rng);
    match rng.below(4) {
        0 => (None, 0, 0),
        1 => (Some(Weighting::Version1), 1, 0),
        _ => (Some(Weighting::Version2 { knee }), 2, knee),
    }
}

/// Reports with any limits, margins, weights and files.
#[test]
fn reports_are_the_second_programs() {
    let mut tally = Tally::default();
    run_seeds(0xD300_0000..0xD300_0000 + 3_000, |_, rng| {
        let (limit, margin) = (random_limit(rng), random_margin(rng));
        let (weighting, version, knee) = random_weighting(rng);
        let (mut report, mut expected) = match weighting {
            None => (
                owfs::Report::start(limit, margin),
                referee::report_start(limit, margin),
            ),
            Some(weighting) => (
                owfs::Report::start_weighted(limit, margin, weighting),
                referee::report_start_weighted(limit, margin, version, knee),
            ),
        };
        demand_report(&report, &expected);
        let files = match weighting {
            None => random_files(&expected, rng, &mut tally),
            Some(_) => weighed_files(&expected, rng, &mut tally),
        };
        for file in files {
            let before = report;
            let told = referee::report_add(expected, &file);
            let done = report.add(&file);
            assert_eq!(done, result(told.number, told.page, ()));
            expected = told.report;
            demand_report(&report, &expected);
            assert_eq!(report.weighting(), weighting);
            assert!(done.is_ok() || report == before);
            tally.add(format!("report add {}", told.number));
        }
    });
    tally.demand_numbers("report add", 1_000, [0, 24, 25]);
}

/// Names, extension numbers and numbers of directories make a path exactly if it is well formed.
#[test]
fn path_is_made_exactly_if_it_is_well_formed() {
    let mut made = [0; 4];
    run_seeds(0xD200_0000..0xD200_0000 + 20_000, |_, rng| {
        let names = rng.between(1, 11);
        let mut stored: Vec<[u8; 4]> = (0..names).map(|_| random_name(rng)).collect();
        if rng.chance(50) {
            let place = rng.below(names);
            stored[place][rng.below(4)] = rng.byte() & 0x7F;
        }
        let extension = [rng.below(100) as u8, rng.byte()][rng.below(2)];
        let bytes = [stored.concat().as_slice(), &[extension]].concat();
        let texts: Vec<&str> = stored
            .iter()
            .map(|name| std::str::from_utf8(name).expect("ASCII"))
            .collect();
        let (name, directories) = texts.split_last().expect("a name");
        let path = owfs::path(directories, name, extension).ok();
        assert_eq!(path, is_path(&bytes).then_some(bytes));
        made[usize::from(path.is_some())] += 1;
        let names = stored.concat();
        let path = owfs::directory_path(&texts).ok();
        assert_eq!(path, is_directory_path(&names).then_some(names));
        made[2 + usize::from(path.is_some())] += 1;
    });
    assert_eq!(owfs::directory_path(&[]), Err(PathError::Empty));
    assert!(made.iter().all(|&times| times > 2_000), "{made:?}");
}
