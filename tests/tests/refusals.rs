//! Each refusal that a call can give: number and page, every other field 0, and what it leaves in the lent memory. A test's name has the calls, an
//! edit being a put, a delete, or the making or removing of a directory, the number, and what is wrong.
//!
//! Programs: the library and the second program. Each call is made by both; every answer and every lent byte is compared.
//! The archive is made by `tools/build`.

use common::generators::{
    damaged_case, deep_image, directories_of, fault_case, files, hidden_plan, is_below_hidden,
    subdirectories, Case, Made,
};
use common::plans::{geometry, may_be_local};
use common::{agreed, answer, table_bytes, Button, Seed};
use referee::builder::plan::{Built, BuiltEntry};
use referee::rng::Rng;
use referee::{Answer, Length, Listing, Totals};

/// What the lent memory holds before a call.
const BEFORE: u8 = 0xC7;

/// Bytes of the owner table past the first N records.
const EXTRA: usize = 7;

/// An edit of a path.
#[derive(Clone, Copy)]
enum Edit<'a> {
    Delete,
    /// With the file's bytes.
    Put(&'a [u8]),
    /// Of a directory.
    Make,
    /// Of a directory.
    Remove,
}

/// A put of a few bytes.
const PUT: Edit = Edit::Put(b"new");

/// The calls with a copy of the image and an owner table that is longer than needed.
struct Lent<'a> {
    button: &'a Button,
    image: Vec<u8>,
    owners: Vec<u8>,
    out: Vec<u8>,
}

impl<'a> Lent<'a> {
    /// An owner table and an output that hold `BEFORE`; the page count may be any number.
    fn new(button: &'a Button, out_bytes: usize) -> Lent<'a> {
        let needed = table_bytes(button.page_count);
        Lent {
            button,
            image: button.image.clone(),
            owners: vec![BEFORE; needed + EXTRA],
            out: vec![BEFORE; out_bytes],
        }
    }

    /// A check.
    fn check(&mut self) -> Totals {
        agreed::check(
            self.button.page_length,
            self.button.page_count,
            &self.image,
            &mut self.owners,
        )
    }

    /// A listing.
    fn list(&mut self, position: u32) -> Listing {
        agreed::list(
            self.button.page_length,
            self.button.page_count,
            &self.image,
            &mut self.owners,
            position,
        )
    }

    /// A read.
    fn read(&mut self, path: &[u8]) -> Length {
        agreed::read(
            self.button.page_length,
            self.button.page_count,
            &self.image,
            path,
            &mut self.out,
            &mut self.owners,
        )
    }

    /// A format.
    fn format(&mut self, local: u32) -> Answer {
        agreed::format(
            self.button.page_length,
            self.button.page_count,
            &mut self.image,
            &mut self.owners,
            local,
        )
    }

    /// A put, a delete, or the making or removing of a directory.
    fn edit(&mut self, edit: Edit, path: &[u8]) -> Answer {
        let (p, n) = (self.button.page_length, self.button.page_count);
        let (image, owners) = (&mut self.image, &mut self.owners);
        match edit {
            Edit::Delete => agreed::delete(p, n, image, path, owners),
            Edit::Put(bytes) => agreed::put(p, n, image, path, bytes, owners),
            Edit::Make => agreed::make_directory(p, n, image, path, owners),
            Edit::Remove => agreed::remove_directory(p, n, image, path, owners),
        }
    }

    /// Demands image and output as before the call, and an owner table with these bytes in front and all others as before.
    fn holds(&self, front: &[u8]) {
        assert!(self.image == self.button.image, "image");
        assert!(self.out.iter().all(|&byte| byte == BEFORE), "output");
        let (first, rest) = self.owners.split_at(front.len());
        assert_eq!(first, front, "owners");
        assert!(
            rest.iter().all(|&byte| byte == BEFORE),
            "rest of the owners"
        );
    }
}

/// Demands that check, list and read refuse an image with these and nothing else in their answers.
/// Afterwards the owner records are all 0, but after 1 the table is as before.
fn refused_by_all(case: &Case, refusal: Answer) {
    let Answer { number, page } = refusal;
    let zeros = match number {
        1 => Vec::new(),
        _ => vec![0; table_bytes(case.button.page_count)],
    };
    let totals = Totals {
        number,
        page,
        ..Totals::default()
    };
    let listing = Listing {
        number,
        page,
        ..Listing::default()
    };
    let length = Length {
        number,
        page,
        ..Length::default()
    };
    let mut lent = Lent::new(&case.button, 0);
    assert_eq!(lent.check(), totals);
    lent.holds(&zeros);
    for position in [0, 1, case.built.entries.len() as u32, u32::MAX] {
        let mut lent = Lent::new(&case.button, 0);
        assert_eq!(lent.list(position), listing);
        lent.holds(&zeros);
    }
    // The image's fault comes before that of a path, a place or an output.
    let paths = case.built.entries.iter().map(|entry| entry.path.as_slice());
    for path in paths.take(5).chain([&b"bad"[..], &b"NONE\x01"[..]]) {
        for out_bytes in [0, 100] {
            let mut lent = Lent::new(&case.button, out_bytes);
            assert_eq!(lent.read(path), length);
            lent.holds(&zeros);
        }
    }
}

/// Demands that an edit refuses an image with this and nothing else, whatever the path: of entries, malformed, of nothing, of any bytes.
/// Afterwards the owner records are all 0, but after 1 the table is as before.
fn edit_refused_by_image(edit: Edit, case: &Case, refusal: Answer, rng: &mut Rng) {
    let zeros = match refusal.number {
        1 => Vec::new(),
        _ => vec![0; table_bytes(case.button.page_count)],
    };
    let paths = case.built.entries.iter().map(|entry| entry.path.clone());
    let mut paths: Vec<Vec<u8>> = paths.take(5).collect();
    paths.extend([b"".to_vec(), b"bad".to_vec(), b"NONE\x01".to_vec()]);
    paths.push(b"NONE".to_vec());
    for length in [5, 9, rng.below(50)] {
        paths.push(rng.bytes(length));
    }
    for path in &paths {
        let mut lent = Lent::new(&case.button, 0);
        assert_eq!(lent.edit(edit, path), refusal, "{path:?}");
        lent.holds(&zeros);
    }
}

/// Demands an edit's refusal with this number (2 to 13) and the page known by construction.
fn edits_refused_with(number: u32) {
    let first = 0x6600_0000 + 1_000 * u64::from(number);
    for seed in first..first + 40 {
        let _seed = Seed(seed);
        let mut rng = Rng::new(seed);
        let case = fault_case(number, &mut rng);
        let Made::OneFault(refusal) = case.made else {
            panic!("a case with one fault");
        };
        assert_eq!(refusal.number, number);
        let puts = [PUT, Edit::Put(b""), Edit::Put(&[7; 3_000])];
        for edit in puts
            .into_iter()
            .chain([Edit::Delete, Edit::Make, Edit::Remove])
        {
            edit_refused_by_image(edit, &case, refusal, &mut rng);
        }
    }
}

/// Demands that an edit is refused with this number and nothing else, and leaves the accepted image's owners.
fn edit_refused(edit: Edit, built: &Built, path: &[u8], number: u32) {
    let button = Button::from(built);
    let mut lent = Lent::new(&button, 0);
    assert_eq!(lent.edit(edit, path), answer(number, 0), "{path:?}");
    lent.holds(&built.owners);
}

#[test]
fn check_list_read_number_1_arguments() {
    for seed in 0x6100_0000..0x6100_0000 + 60 {
        let _seed = Seed(seed);
        let case = damaged_case(Made::Misfit, &mut Rng::new(seed));
        refused_by_all(&case, answer(1, 0));
    }
}

/// Bytes of owner tables that are too short: none, half of what is needed, a record too few, one to three bytes too few.
fn too_short(needed: usize) -> Vec<usize> {
    let front = [0, 1, needed / 2].into_iter();
    front.chain(needed - 4..needed).collect()
}

/// An owner table that is too short is 1 with every call and is not touched.
#[test]
fn check_list_read_number_1_owner_table() {
    let built = deep_image(&mut Rng::new(0x6100_1000));
    let button = Button::from(&built);
    let needed = table_bytes(button.page_count);
    for owner_bytes in too_short(needed) {
        let mut lent = Lent::new(&button, 100);
        lent.owners.truncate(owner_bytes);
        let totals = Totals {
            number: 1,
            ..Totals::default()
        };
        assert_eq!(lent.check(), totals);
        let listing = Listing {
            number: 1,
            ..Listing::default()
        };
        assert_eq!(lent.list(0), listing);
        let length = Length {
            number: 1,
            ..Length::default()
        };
        assert_eq!(lent.read(b"bad"), length);
        lent.holds(&[]);
    }
}

#[test]
fn check_list_read_numbers_2_to_13() {
    for number in 2..=13 {
        let first = 0x6200_0000 + 1_000 * u64::from(number);
        for seed in first..first + 40 {
            let _seed = Seed(seed);
            let case = fault_case(number, &mut Rng::new(seed));
            let Made::OneFault(refusal) = case.made else {
                panic!("a case with one fault");
            };
            assert_eq!(refusal.number, number);
            refused_by_all(&case, refusal);
        }
    }
}

/// Demands that a read is refused with this number and nothing else, and leaves the accepted image's owners.
fn read_refused(built: &Built, path: &[u8], out_bytes: usize, number: u32) {
    let button = Button::from(built);
    let mut lent = Lent::new(&button, out_bytes);
    let length = Length {
        number,
        ..Length::default()
    };
    assert_eq!(lent.read(path), length, "{path:?}");
    lent.holds(&built.owners);
}

#[test]
fn read_number_14_path() {
    for seed in 0x6300_0000..0x6300_0000 + 20 {
        let _seed = Seed(seed);
        let built = deep_image(&mut Rng::new(seed));
        for path in [
            &b""[..],
            b"A",
            b"FILE",
            b"FILE\x64",
            b"FILE\xFF",
            b"a   \x01",
        ] {
            read_refused(&built, path, 40, 14);
        }
        for file in files(&built) {
            let mut path = file.path.clone();
            let extension = path.pop().unwrap_or(0);
            read_refused(&built, &path, 40, 14);
            path.push(extension | 0x80);
            read_refused(&built, &path, 40, 14);
        }
    }
}

#[test]
fn list_read_number_15_absent() {
    for seed in 0x6400_0000..0x6400_0000 + 20 {
        let _seed = Seed(seed);
        let built = deep_image(&mut Rng::new(seed));
        let end = built.entries.len() as u32;
        let button = Button::from(&built);
        for position in [end, end + 1, 65_536, 65_536 + end, u32::MAX] {
            let mut lent = Lent::new(&button, 0);
            let listing = Listing {
                number: 15,
                ..Listing::default()
            };
            assert_eq!(lent.list(position), listing);
            lent.holds(&built.owners);
        }
        for file in files(&built) {
            // The file's name in the place of a directory; a directory of that name has no NONE.7.
            let mut path = file.path.clone();
            let last = path.len() - 1;
            path.splice(last.., *b"NONE\x07");
            if path.len() <= 37 {
                read_refused(&built, &path, 40, 15);
            }
        }
    }
}

#[test]
fn read_number_18_output() {
    let mut met = 0;
    for seed in 0x6500_0000..0x6500_0000 + 20 {
        let _seed = Seed(seed);
        let built = deep_image(&mut Rng::new(seed));
        for file in files(&built) {
            let length = file.bytes.len();
            for out_bytes in [0, length / 2, length.saturating_sub(1)] {
                if out_bytes < length {
                    read_refused(&built, &file.path, out_bytes, 18);
                    met += 1;
                }
            }
        }
    }
    assert!(met >= 100, "met {met} times");
}

/// Page length, page count or image length.
#[test]
fn edit_number_1_arguments() {
    for seed in 0x6600_0000..0x6600_0000 + 100 {
        let _seed = Seed(seed);
        let mut rng = Rng::new(seed);
        let case = damaged_case(Made::Misfit, &mut rng);
        for edit in [Edit::Delete, PUT, Edit::Make, Edit::Remove] {
            edit_refused_by_image(edit, &case, answer(1, 0), &mut rng);
        }
    }
}

/// An owner table that is too short is 1 and is not touched, for a file that could be put or deleted and for one that could not.
#[test]
fn edit_number_1_owner_table() {
    let seed = Seed(0x6600_1000);
    let built = deep_image(&mut Rng::new(seed.0));
    let button = Button::from(&built);
    let needed = table_bytes(button.page_count);
    for owner_bytes in too_short(needed) {
        let paths = built.entries.iter().map(|entry| entry.path.as_slice());
        for path in paths.chain([&b"bad"[..], b"NONE\x01", b"NONE"]) {
            for edit in [Edit::Delete, PUT, Edit::Make, Edit::Remove] {
                let mut lent = Lent::new(&button, 0);
                lent.owners.truncate(owner_bytes);
                assert_eq!(lent.edit(edit, path), answer(1, 0));
                lent.holds(&[]);
            }
        }
    }
}

#[test]
fn edit_number_2_packet() {
    edits_refused_with(2);
}

#[test]
fn edit_number_3_marker() {
    edits_refused_with(3);
}

#[test]
fn edit_number_4_control_field() {
    edits_refused_with(4);
}

#[test]
fn edit_number_5_in_progress() {
    edits_refused_with(5);
}

#[test]
fn edit_number_6_page_number() {
    edits_refused_with(6);
}

#[test]
fn edit_number_7_crossed() {
    edits_refused_with(7);
}

#[test]
fn edit_number_8_count() {
    edits_refused_with(8);
}

#[test]
fn edit_number_9_name() {
    edits_refused_with(9);
}

#[test]
fn edit_number_10_extension() {
    edits_refused_with(10);
}

#[test]
fn edit_number_11_twice() {
    edits_refused_with(11);
}

#[test]
fn edit_number_12_too_deep() {
    edits_refused_with(12);
}

#[test]
fn edit_number_13_bitmap() {
    edits_refused_with(13);
}

/// Any bytes as image and path: whatever fault they have, nothing but the owner records is written.
#[test]
fn edits_of_any_bytes_tell_the_fault_of_the_check() {
    for seed in 0x6700_0000..0x6700_0000 + 200 {
        let _seed = Seed(seed);
        let mut rng = Rng::new(seed);
        let mut case = damaged_case(Made::Packets, &mut rng);
        if rng.chance(50) {
            case.button.image = rng.bytes(case.button.image.len());
        }
        let totals = Lent::new(&case.button, 0).check();
        if totals.number != 0 {
            let refusal = answer(totals.number, totals.page);
            for edit in [Edit::Delete, PUT, Edit::Make, Edit::Remove] {
                edit_refused_by_image(edit, &case, refusal, &mut rng);
            }
        }
    }
}

/// Demands 14 for a path from a put and a delete.
fn malformed(built: &Built, path: &[u8]) {
    for edit in [Edit::Delete, PUT, Edit::Put(&[7; 3_000])] {
        edit_refused(edit, built, path, 14);
    }
}

#[test]
fn edit_number_14_path() {
    for seed in 0x6800_0000..0x6800_0000 + 20 {
        let _seed = Seed(seed);
        let mut rng = Rng::new(seed);
        let built = deep_image(&mut rng);
        for path in [
            &b""[..],
            b"A",
            b"FILE",
            b"FILE\x64",
            b"FILE\x7F",
            b"FILE\xFF",
            b"a   \x01",
            b" A  \x01",
            b"A B \x01",
            b"    \x01",
            b"A.B \x01",
            b"\xC1   \x01",
        ] {
            malformed(&built, path);
        }
        for length in 0..=60 {
            if length % 4 != 1 || !(5..=37).contains(&length) {
                malformed(&built, &rng.bytes(length));
                malformed(&built, &b"ROOT".repeat(16)[..length]);
            }
        }
        for entry in &built.entries {
            // The names alone, and with an extension above 99, which a read-only file has as stored.
            let mut path = entry.path.clone();
            path.truncate(path.len() / 4 * 4);
            malformed(&built, &path);
            for extension in [100, 127, 128, entry.listing.extension as u8 | 0x80] {
                path.push(extension);
                malformed(&built, &path);
                path.pop();
            }
        }
    }
}

#[test]
fn delete_number_15_absent() {
    for seed in 0x6900_0000..0x6900_0000 + 20 {
        let _seed = Seed(seed);
        let built = deep_image(&mut Rng::new(seed));
        for path in [&b"NONE\x07"[..], b"NONEFILE\x07", b"NONENONENONE\x07"] {
            edit_refused(Edit::Delete, &built, path, 15);
        }
        for entry in &built.entries {
            // A file's or directory's name in the place of a directory; none has NONE.7.
            let names = entry.path.len() / 4 * 4;
            let mut path = entry.path[..names].to_vec();
            path.extend(*b"NONE\x07");
            if path.len() <= 37 {
                edit_refused(Edit::Delete, &built, &path, 15);
            }
            // A directory's name in the place of a file.
            let mut path = entry.path.clone();
            if entry.listing.extension == 127 {
                path.push(99);
                if !built.entries.iter().any(|other| other.path == path) {
                    edit_refused(Edit::Delete, &built, &path, 15);
                }
            }
        }
    }
}

/// Only a missing directory is 15 for a put, also if there is no room for the file.
#[test]
fn put_number_15_absent() {
    for seed in 0x6980_0000..0x6980_0000 + 20 {
        let _seed = Seed(seed);
        let built = deep_image(&mut Rng::new(seed));
        let is_directory = |names: &[u8]| built.entries.iter().any(|entry| entry.path == names);
        let tops = [&b"NONE"[..], b"NONENONE", b"ROOT"].map(<[u8]>::to_vec);
        // A name that is missing in a directory, and a file's name in the place of a directory.
        let below = built.entries.iter().flat_map(|entry| {
            let names = &entry.path[..entry.path.len() / 4 * 4];
            [[names, b"NONE"].concat(), names.to_vec()]
        });
        for names in tops.into_iter().chain(below) {
            if is_directory(&names) || names.len() > 32 {
                continue;
            }
            let path = [names.as_slice(), b"FILE\x07"].concat();
            for edit in [PUT, Edit::Put(b""), Edit::Put(&[7; 3_000])] {
                edit_refused(edit, &built, &path, 15);
            }
        }
    }
}

/// Whether a directory on the way to an entry is hidden.
fn is_hidden(built: &Built, entry: &BuiltEntry) -> bool {
    is_below_hidden(built, directories_of(entry))
}

/// Whether an entry is hidden or a directory on the way to it is: what can be put there is 22.
fn is_in_hidden(built: &Built, entry: &BuiltEntry) -> bool {
    let is_directory = entry.listing.extension == 127;
    is_hidden(built, entry) || (is_directory && entry.listing.attribute == 1)
}

/// A read-only file is 16, also if there is no room for a put.
#[test]
fn edit_number_16_read_only() {
    let mut met = 0;
    for seed in 0x6A00_0000..0x6A00_0000 + 40 {
        let _seed = Seed(seed);
        let built = deep_image(&mut Rng::new(seed));
        let too_long = vec![7; built.image.len()];
        for file in files(&built) {
            if file.listing.attribute == 1 && !is_hidden(&built, file) {
                for edit in [Edit::Delete, PUT, Edit::Put(b""), Edit::Put(&too_long)] {
                    edit_refused(edit, &built, &file.path, 16);
                }
                met += 1;
            }
        }
    }
    assert!(met >= 100, "met {met} times");
}

/// One byte more than all free pages hold, with those of a replaced file: 17, and the image and its owners are as before.
#[test]
fn put_number_17_no_room() {
    let mut met = [0; 2];
    for seed in 0x6A80_0000..0x6A80_0000 + 40 {
        let _seed = Seed(seed);
        let built = deep_image(&mut Rng::new(seed));
        let geometry = geometry(built.page_length, built.page_count);
        let free = (built.page_count - built.totals.used) as usize;
        for entry in &built.entries {
            let pages = entry.listing.pages as usize;
            let bytes = vec![7; (free + pages) * geometry.max_data() + 1];
            let is_directory = entry.listing.extension == 127;
            if is_in_hidden(&built, entry) {
                continue;
            }
            if is_directory {
                // A new file in the directory.
                let path = [&entry.path[..], b"NEW'\x07"].concat();
                edit_refused(Edit::Put(&bytes), &built, &path, 17);
                met[0] += 1;
            } else if entry.listing.attribute == 0 {
                edit_refused(Edit::Put(&bytes), &built, &entry.path, 17);
                met[1] += 1;
            }
        }
        let bytes = vec![7; free * geometry.max_data() + 1];
        edit_refused(Edit::Put(&bytes), &built, b"NEW'\x07", 17);
    }
    assert!(met.iter().all(|&times| times >= 100), "met {met:?} times");
}

/// A file below a hidden directory is 22, also if it is read-only, and so is a new one, also if there is no room for a put. A malformed path is 14, a
/// missing directory or, for a delete, a missing file is 15.
#[test]
fn edit_number_22_hidden() {
    let mut met = [0; 3];
    for seed in 0x6A40_0000..0x6A40_0000 + 60 {
        let _seed = Seed(seed);
        let built = deep_image(&mut Rng::new(seed));
        let too_long = vec![7; built.image.len()];
        let puts = [PUT, Edit::Put(b""), Edit::Put(&too_long)];
        for entry in &built.entries {
            let is_directory = entry.listing.extension == 127;
            if !is_in_hidden(&built, entry) {
                continue;
            }
            let names = &entry.path[..entry.path.len() / 4 * 4];
            malformed(&built, names);
            let path = match is_directory {
                true => [names, b"NEW'\x07"].concat(),
                false => entry.path.clone(),
            };
            for edit in puts {
                edit_refused(edit, &built, &path, 22);
            }
            if is_directory {
                edit_refused(Edit::Delete, &built, &path, 15);
                met[0] += 1;
            } else {
                edit_refused(Edit::Delete, &built, &path, 22);
                met[1 + entry.listing.attribute as usize] += 1;
            }
            if is_directory && names.len() < 32 {
                let below = [names, b"NONEFILE\x07"].concat();
                for edit in [Edit::Delete].into_iter().chain(puts) {
                    edit_refused(edit, &built, &below, 15);
                }
            }
        }
    }
    assert!(met.iter().all(|&times| times >= 50), "met {met:?} times");
}

/// Demands 14 for a path from the making and the removing of a directory.
fn malformed_directory(built: &Built, path: &[u8]) {
    for edit in [Edit::Make, Edit::Remove] {
        edit_refused(edit, built, path, 14);
    }
}

/// Each length but those of one to eight names, and each name that is none, whatever the others lead to.
#[test]
fn directory_number_14_path() {
    for seed in 0x6880_0000..0x6880_0000 + 20 {
        let _seed = Seed(seed);
        let mut rng = Rng::new(seed);
        let built = deep_image(&mut rng);
        for length in 0..=60 {
            if length % 4 != 0 || !(4..=32).contains(&length) {
                malformed_directory(&built, &rng.bytes(length));
                malformed_directory(&built, &b"ROOT".repeat(16)[..length]);
            }
        }
        let no_names = [
            b"a   ", b" A  ", b"A B ", b"    ", b"A.B ", b"\xC1   ", b"A\0  ", b"AB\x7F ",
        ];
        for name in no_names {
            malformed_directory(&built, name);
            malformed_directory(&built, &[name, &b"ROOT"[..]].concat());
            malformed_directory(&built, &[&b"ROOT"[..], name].concat());
        }
        for entry in &built.entries {
            // A byte more, as a file's path has it, and nine names.
            let names = entry.path[..entry.path.len() / 4 * 4].to_vec();
            for byte in [0, 1, 99, 127, b' ', b'A', 255] {
                malformed_directory(&built, &[names.as_slice(), &[byte]].concat());
            }
            let nine = [names.as_slice(), &b"ROOT".repeat(9)].concat();
            malformed_directory(&built, &nine[..36]);
        }
    }
}

/// A missing directory before the last name, for a removal the last one too; also below a hidden directory, and if there is no room.
#[test]
fn directory_number_15_absent() {
    let mut met = 0;
    for seed in 0x6980_1000..0x6980_1000 + 20 {
        let _seed = Seed(seed);
        let built = deep_image(&mut Rng::new(seed));
        let is_directory = |names: &[u8]| {
            let mut all = subdirectories(&built).into_iter();
            all.any(|entry| entry.path == names)
        };
        edit_refused(Edit::Remove, &built, b"NONE", 15);
        for entry in &built.entries {
            // A missing name, and a file's name in the place of a directory.
            let names = entry.path[..entry.path.len() / 4 * 4].to_vec();
            for parent in [[names.as_slice(), b"NONE"].concat(), names] {
                if parent.len() > 32 || is_directory(&parent) {
                    continue;
                }
                edit_refused(Edit::Remove, &built, &parent, 15);
                if parent.len() < 32 {
                    let below = [parent.as_slice(), b"NEW'"].concat();
                    edit_refused(Edit::Make, &built, &below, 15);
                    edit_refused(Edit::Remove, &built, &below, 15);
                    met += 1;
                }
            }
        }
    }
    assert!(met >= 100, "met {met} times");
}

/// No page free, or one if the parent has no space: 17.
#[test]
fn make_number_17_no_room() {
    let mut met = 0;
    for seed in 0x6A80_1000..0x6A80_1000 + 60 {
        let _seed = Seed(seed);
        let built = deep_image(&mut Rng::new(seed));
        // A file on all free pages, if there is room for its entry.
        let mut button = Button::from(&built);
        let free = (built.page_count - built.totals.used) as usize;
        let geometry = geometry(built.page_length, built.page_count);
        for pages in [free, free.saturating_sub(1)] {
            if button
                .put(b"FULL\x07", &vec![7; pages * geometry.max_data()])
                .0
                .number
                == 0
            {
                break;
            }
        }
        let owners = button.check().1;
        let directories = subdirectories(&built).into_iter();
        let names = directories.filter(|entry| !is_in_hidden(&built, entry));
        for parent in names.map(|entry| entry.path.clone()).chain([Vec::new()]) {
            let path = [parent.as_slice(), b"NEW'"].concat();
            let (before, totals) = (button.clone(), button.check().0);
            if path.len() > 32 || totals.used < button.page_count {
                continue;
            }
            let (told, after) = button.make_directory(&path);
            assert_eq!((told, &after), (answer(17, 0), &owners), "{path:?}");
            assert!(button == before);
            met += 1;
        }
    }
    assert!(met >= 50, "met {met} times");
}

/// A directory with entries, of files or of directories, is not removed.
#[test]
fn remove_number_20_not_empty() {
    let mut met = 0;
    for seed in 0x6A20_0000..0x6A20_0000 + 40 {
        let _seed = Seed(seed);
        let built = deep_image(&mut Rng::new(seed));
        for directory in subdirectories(&built) {
            let has_entries = |path: &[u8]| {
                let mut all = built.entries.iter();
                all.any(|entry| {
                    entry.path.len() > path.len()
                        && entry.path.starts_with(path)
                        && entry.listing.level as usize * 4 == path.len()
                })
            };
            if !is_in_hidden(&built, directory) && has_entries(&directory.path) {
                edit_refused(Edit::Remove, &built, &directory.path, 20);
                met += 1;
            }
        }
    }
    assert!(met >= 100, "met {met} times");
}

/// A directory that is there, hidden or not, is not made, also if there is no room.
#[test]
fn make_number_21_already_there() {
    let mut met = [0; 2];
    for seed in 0x6A30_0000..0x6A30_0000 + 160 {
        let _seed = Seed(seed);
        let built = hidden_plan(&mut Rng::new(seed)).build();
        for directory in subdirectories(&built) {
            if !is_hidden(&built, directory) {
                edit_refused(Edit::Make, &built, &directory.path, 21);
                met[directory.listing.attribute as usize] += 1;
            }
        }
    }
    assert!(met.iter().all(|&times| times >= 50), "met {met:?} times");
}

/// Below a hidden directory none is made, whether there is one of that name or not, and none removed, whether it has entries or not; a hidden one is
/// not removed either. What is missing is 15.
#[test]
fn directory_number_22_hidden() {
    let mut met = [0; 3];
    for seed in 0x6A50_0000..0x6A50_0000 + 60 {
        let _seed = Seed(seed);
        let built = deep_image(&mut Rng::new(seed));
        for directory in subdirectories(&built) {
            let path = &directory.path;
            if !is_in_hidden(&built, directory) {
                continue;
            }
            edit_refused(Edit::Remove, &built, path, 22);
            met[0] += 1;
            if is_hidden(&built, directory) {
                edit_refused(Edit::Make, &built, path, 22);
                met[1] += 1;
            }
            malformed_directory(&built, &[path, &b"\x01"[..]].concat());
            if path.len() < 32 {
                let new = [path, &b"NEW'"[..]].concat();
                edit_refused(Edit::Make, &built, &new, 22);
                edit_refused(Edit::Remove, &built, &new, 15);
                met[2] += 1;
            }
        }
    }
    assert!(met.iter().all(|&times| times >= 50), "met {met:?} times");
}

/// Page length, page count or image length; also where a local bitmap is not allowed.
#[test]
fn format_number_1_arguments() {
    for seed in 0x6B00_0000..0x6B00_0000 + 100 {
        let _seed = Seed(seed);
        let case = damaged_case(Made::Misfit, &mut Rng::new(seed));
        for local in [0, 1, u32::MAX] {
            let mut lent = Lent::new(&case.button, 0);
            assert_eq!(lent.format(local), answer(1, 0));
            lent.holds(&[]);
        }
    }
}

/// An owner table that is too short is 1 and is not touched, before a local bitmap is 4.
#[test]
fn format_number_1_owner_table() {
    for page_count in [2, 31, 32, 33, 300] {
        let button = Button::formatted(32, page_count, false);
        let needed = table_bytes(page_count);
        for owner_bytes in too_short(needed) {
            for local in [0, 1] {
                let mut lent = Lent::new(&button, 0);
                lent.owners.truncate(owner_bytes);
                assert_eq!(lent.format(local), answer(1, 0));
                lent.holds(&[]);
            }
        }
    }
}

/// A local bitmap with more than 32 pages: the table tells of the old image as it stands, which may be accepted.
#[test]
fn format_number_4_over_an_accepted_image() {
    let mut met = 0;
    for seed in 0x6C00_0000..0x6C00_0000 + 100 {
        let _seed = Seed(seed);
        let built = deep_image(&mut Rng::new(seed));
        if may_be_local(built.page_count) {
            continue;
        }
        let button = Button::from(&built);
        for local in [1, 2, 256, 65_536, u32::MAX] {
            let mut lent = Lent::new(&button, 0);
            assert_eq!(lent.format(local), answer(4, 0));
            lent.holds(&built.owners);
            met += 1;
        }
    }
    assert!(met >= 300, "met {met} times");
}

/// A local bitmap with more than 32 pages: if the old image is not accepted, for any fault, the owner records are all 0.
#[test]
fn format_number_4_over_a_refused_image() {
    let mut met = [0; 14];
    for seed in 0x6D00_0000..0x6D00_0000 + 480 {
        let _seed = Seed(seed);
        let mut rng = Rng::new(seed);
        let number = 2 + (seed % 12) as u32;
        let case = fault_case(number, &mut rng);
        if may_be_local(case.button.page_count) {
            continue;
        }
        let mut lent = Lent::new(&case.button, 0);
        assert_eq!(lent.format(1 + rng.below(3) as u32), answer(4, 0));
        lent.holds(&vec![0; table_bytes(case.button.page_count)]);
        met[number as usize] += 1;
    }
    assert!(met[2..].iter().all(|&times| times >= 5), "{met:?}");
}

/// A local bitmap with more than 32 pages over any bytes.
#[test]
fn format_number_4_over_any_bytes() {
    let seed = Seed(0x6E00_0000);
    let mut rng = Rng::new(seed.0);
    for page_count in (33..=300).chain([65_535]) {
        let button = Button {
            page_length: 32,
            page_count,
            image: rng.bytes(32 * page_count as usize),
        };
        let mut lent = Lent::new(&button, 0);
        assert_eq!(lent.format(1), answer(4, 0));
        lent.holds(&vec![0; table_bytes(page_count)]);
    }
}
