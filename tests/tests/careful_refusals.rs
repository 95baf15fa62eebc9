//! Each refusal of careful put, careful delete and mend: number and page, every count 0, and what it leaves in the lent memory.
//!
//! Programs: the library and the second program. Each call is made by both; every answer and every lent byte is compared, path and file's bytes too.
//! The archive is made by `tools/build`.

use common::generators::{
    damaged_case, directories_of, fault_case, files, is_below_hidden, sound_case, Made,
};
use common::plans::is_path;
use common::{agreed, no_writes, not_mended, run_seeds, table_bytes, Button, Tally};
use referee::builder::pages::{path, Pages};
use referee::{Mended, Writes};

/// What the owner table holds before a call.
const BEFORE: u8 = 0xC7;

/// Bytes of the owner table past the first N records.
const EXTRA: usize = 7;

/// The numbers of writes that are allowed.
const ALLOWED: [u32; 4] = [0, 1, 3, u32::MAX];

/// A path and the bytes of a file.
type Put<'a> = (&'a [u8], &'a [u8]);

/// A call with a copy of the image and an owner table of so many bytes; image and table afterwards.
struct Lent {
    image: Vec<u8>,
    owners: Vec<u8>,
}

impl Lent {
    /// The memory for calls with a button.
    fn new(button: &Button, owner_bytes: usize) -> Lent {
        Lent {
            image: button.image.clone(),
            owners: vec![BEFORE; owner_bytes],
        }
    }

    /// A careful put.
    fn put(&mut self, button: &Button, (path, bytes): Put, allowed: u32) -> Writes {
        let (p, n) = (button.page_length, button.page_count);
        let (image, owners) = (&mut self.image, &mut self.owners);
        agreed::careful_put(p, n, image, path, bytes, owners, allowed)
    }

    /// A careful delete.
    fn delete(&mut self, button: &Button, path: &[u8], allowed: u32) -> Writes {
        let (p, n) = (button.page_length, button.page_count);
        agreed::careful_delete(p, n, &mut self.image, path, &mut self.owners, allowed)
    }

    /// A mend.
    fn mend(&mut self, button: &Button) -> Mended {
        let (p, n) = (button.page_length, button.page_count);
        agreed::mend(p, n, &mut self.image, &mut self.owners)
    }

    /// Demands the image as before, these owner bytes in front, and the rest of the table as before.
    fn holds(&self, button: &Button, front: &[u8]) {
        assert!(self.image == button.image, "image");
        let (first, rest) = self.owners.split_at(front.len());
        assert_eq!(first, front, "owners");
        assert!(rest.iter().all(|&byte| byte == BEFORE), "rest of the table");
    }
}

/// Demands a refusal of the image from the careful calls, whatever path, bytes and number of writes.
fn demand_refused(button: &Button, owner_bytes: usize, refusal: Writes, front: &[u8]) {
    for path in [&b"A   \x01"[..], b"", b"bad path"] {
        for allowed in ALLOWED {
            let mut lent = Lent::new(button, owner_bytes);
            assert_eq!(lent.put(button, (path, b"new"), allowed), refusal);
            lent.holds(button, front);
            let mut lent = Lent::new(button, owner_bytes);
            assert_eq!(lent.delete(button, path, allowed), refusal);
            lent.holds(button, front);
        }
    }
}

/// Demands a refusal of the image from all three calls; mend may clear marks instead where the check says 13.
fn demand_all_refused(button: &Button, owner_bytes: usize, number: u32, page: u32, front: &[u8]) {
    demand_refused(button, owner_bytes, no_writes(number, page), front);
    if number != 13 {
        let mut lent = Lent::new(button, owner_bytes);
        assert_eq!(lent.mend(button), not_mended(number, page));
        lent.holds(button, front);
    }
}

/// Page length, page count, image length or owner table wrong: nothing is touched.
#[test]
fn arguments_that_do_not_fit_are_1() {
    run_seeds(0xEB00_0000..0xEB00_0000 + 300, |_, rng| {
        let case = damaged_case(Made::Misfit, rng);
        let enough = table_bytes(case.button.page_count);
        demand_all_refused(&case.button, enough + EXTRA, 1, 0, &[]);
    });
    let button = Button::formatted(32, 16, true);
    for owner_bytes in [0, 1, 32, 60, 61, 62, 63] {
        demand_all_refused(&button, owner_bytes, 1, 0, &[]);
    }
    for (page_length, page_count) in [
        (31, 16),
        (257, 16),
        (32, 1),
        (32, 0),
        (32, 65_536),
        (65_568, 16),
        (32, 65_552),
        (u32::MAX, u32::MAX),
    ] {
        let odd = Button {
            page_length,
            page_count,
            image: button.image.clone(),
        };
        demand_all_refused(&odd, 280_000, 1, 0, &[]);
    }
    for image_bytes in [0, 511, 513] {
        let odd = Button {
            image: vec![0x3C; image_bytes],
            ..button.clone()
        };
        demand_all_refused(&odd, 64, 1, 0, &[]);
    }
}

/// Each fault of an image, with all owner records 0 afterwards.
#[test]
fn faults_of_the_image_are_2_to_13() {
    let mut tally = Tally::default();
    run_seeds(0xEC00_0000..0xEC00_0000 + 600, |seed, rng| {
        let case = fault_case(2 + (seed % 12) as u32, rng);
        let Made::OneFault(fault) = case.made else {
            return;
        };
        let enough = table_bytes(case.button.page_count);
        let zeros = vec![0; enough];
        demand_all_refused(
            &case.button,
            enough + EXTRA,
            fault.number,
            fault.page,
            &zeros,
        );
        tally.add(format!("refused {}", fault.number));
    });
    tally.demand_numbers("refused", 20, 2..=13);
}

/// A button with A.1 of two pages, a read-only file R.2 and a directory D with a read-only file S.3 and a file T.4; pages 7 and 8 are free. Its table is
/// given too.
fn sample() -> (Button, Vec<u8>) {
    let mut pages = Pages::new(32, 9);
    let mut root = pages.local_control(&[0, 1, 2, 3, 4, 5, 6]);
    root.extend(pages.entry("A", 1, 1, 2));
    root.extend(pages.entry("R", 0x82, 3, 1));
    root.extend(pages.entry("D", 0x7F, 4, 0));
    let mut sub = pages.sub_control("ROOT", 0);
    sub.extend(pages.entry("S", 0x83, 5, 1));
    sub.extend(pages.entry("T", 4, 6, 1));
    pages.packet(0, &root, 0).packet(1, b"aa", 2);
    pages.packet(2, b"a", 0).packet(3, b"r", 0);
    pages.packet(4, &sub, 0).packet(5, b"s", 0);
    pages.packet(6, b"t", 0);
    let owners = [
        [1, 0, 0, 0],
        [3, 0, 0, 0],
        [3, 0, 1, 0],
        [4, 0, 0, 0],
        [5, 0, 0, 0],
        [6, 0, 0, 0],
        [7, 0, 0, 0],
        [0; 4],
        [0; 4],
    ];
    (Button::from(&pages), owners.concat())
}

/// The sample with its directory D hidden; its table is the same.
fn hidden_sample() -> (Button, Vec<u8>) {
    let (button, owners) = sample();
    let mut pages = button.pages();
    // The extension byte of the root's third entry.
    let place = 1 + 7 + 2 * 7 + 4;
    assert_eq!(pages.page(0)[place], 0x7F);
    pages.alter(0, place, &[0xFF]);
    (Button::from(&pages), owners)
}

/// Demands refusals of a path, which have the owners of the accepted image.
fn demand_path_refused(path: &[u8], bytes: &[u8], put: u32, delete: u32) {
    demand_refused_in(&sample(), path, bytes, put, delete);
}

/// Demands refusals of a path in an accepted image, which have its owners; 0 stands for no such call.
fn demand_refused_in(
    (button, owners): &(Button, Vec<u8>),
    path: &[u8],
    bytes: &[u8],
    put: u32,
    delete: u32,
) {
    let enough = owners.len();
    for owner_bytes in [enough, enough + 1, enough + EXTRA] {
        for allowed in ALLOWED {
            let mut lent = Lent::new(button, owner_bytes);
            if put != 0 {
                let told = lent.put(button, (path, bytes), allowed);
                assert_eq!(told, no_writes(put, 0), "put to {path:?}");
                lent.holds(button, owners);
            }
            let mut lent = Lent::new(button, owner_bytes);
            if delete != 0 {
                let told = lent.delete(button, path, allowed);
                assert_eq!(told, no_writes(delete, 0), "delete of {path:?}");
                lent.holds(button, owners);
            }
        }
    }
}

#[test]
fn malformed_path_is_14() {
    let long = vec![0; 4_000];
    for bad in [
        &b""[..],
        b"A   ",
        b"A   \x64",
        b"A   \x81",
        b"a   \x01",
        b"A B \x01",
        b" A  \x01",
        b"D   A  \x01",
        b"A   \x01\x01",
        &[b"D   ".repeat(9).as_slice(), b"A   \x01"].concat(),
        &[b'A'; 70_000],
    ] {
        assert!(!is_path(bad));
        // 14 comes before 17.
        demand_path_refused(bad, &long, 14, 14);
    }
}

#[test]
fn absent_directory_or_file_is_15() {
    let long = vec![0; 4_000];
    for names in [&["NONE"][..], &["D", "NONE"], &["A"], &["NONE", "D"]] {
        demand_path_refused(&path(names, "A", 1), &long, 15, 15);
    }
    for absent in [path(&[], "A", 2), path(&["D"], "A", 1), path(&[], "D", 1)] {
        demand_path_refused(&absent, b"", 0, 15);
    }
}

#[test]
fn read_only_file_is_16() {
    for (bytes, number) in [(&b"x"[..], 16), (&[0; 4_000], 16)] {
        demand_path_refused(&path(&[], "R", 2), bytes, number, 16);
        demand_path_refused(&path(&["D"], "S", 3), bytes, number, 16);
    }
}

/// A file in a hidden directory is 22, also if it is read-only or there is no room, and so is a new one; what is missing there is 15, a malformed path
/// 14. Elsewhere nothing is hidden.
#[test]
fn hidden_directory_is_22() {
    let hidden = hidden_sample();
    assert_eq!(hidden.0.verdict().number, 0);
    for bytes in [&b"x"[..], &[0; 4_000]] {
        for (name, extension) in [("S", 3), ("T", 4)] {
            demand_refused_in(&hidden, &path(&["D"], name, extension), bytes, 22, 22);
        }
        demand_refused_in(&hidden, &path(&["D"], "N", 1), bytes, 22, 15);
        demand_refused_in(&hidden, &path(&["D", "E"], "N", 1), bytes, 15, 15);
        demand_refused_in(&hidden, &path(&["D"], "T", 104), bytes, 14, 14);
        demand_refused_in(&hidden, &path(&[], "R", 2), bytes, 16, 16);
    }
    let (button, _) = &hidden;
    let told = button.clone().careful_put(&path(&[], "A", 1), b"", 99).0;
    assert_eq!((told.number, told.left), (0, 0));
    let told = button.clone().careful_delete(&path(&[], "A", 1), 99).0;
    assert_eq!((told.number, told.left), (0, 0));
}

/// Two pages are free: a file of three has no room, also where it replaces one of two; the full root must grow by one of them.
#[test]
fn no_room_is_17() {
    let most = 2 * 28;
    demand_path_refused(&path(&[], "A", 1), &vec![0; most + 1], 17, 0);
    demand_path_refused(&path(&["D"], "N", 1), &vec![0; most + 1], 17, 0);
    demand_path_refused(&path(&[], "N", 1), &vec![0; most / 2 + 1], 17, 0);
    demand_path_refused(&path(&[], "N", 1), &vec![0; 100_000], 17, 0);
    let (button, _) = sample();
    for (path, length) in [
        (path(&[], "A", 1), most),
        (path(&["D"], "N", 1), most),
        (path(&[], "N", 1), most / 2),
    ] {
        let told = button.clone().careful_put(&path, &vec![0; length], 99).0;
        assert_eq!((told.number, told.left), (0, 0), "{path:?}");
    }
}

/// Read-only files are deleted and replaced by none of the calls, in any image.
#[test]
fn read_only_files_of_any_image_are_16() {
    let mut refused = 0;
    run_seeds(0xED00_0000..0xED00_0000 + 300, |_, rng| {
        let case = sound_case(rng);
        let read_only = files(&case.built).into_iter().filter(|file| {
            let is_hidden = is_below_hidden(&case.built, directories_of(file));
            file.listing.attribute == 1 && !is_hidden
        });
        for file in read_only.take(3) {
            let owners = &case.built.owners;
            for allowed in ALLOWED {
                let mut lent = Lent::new(&case.button, owners.len() + EXTRA);
                let told = lent.put(&case.button, (&file.path, b""), allowed);
                assert_eq!(told, no_writes(16, 0));
                lent.holds(&case.button, owners);
                let mut lent = Lent::new(&case.button, owners.len() + EXTRA);
                let told = lent.delete(&case.button, &file.path, allowed);
                assert_eq!(told, no_writes(16, 0));
                lent.holds(&case.button, owners);
                refused += 1;
            }
        }
    });
    assert!(refused > 200, "{refused}");
}

/// Files below hidden directories are deleted and replaced by none of the calls, in any image.
#[test]
fn files_below_hidden_directories_of_any_image_are_22() {
    let mut refused = 0;
    run_seeds(0xEE00_0000..0xEE00_0000 + 800, |_, rng| {
        let case = sound_case(rng);
        let is_hidden = |names: &[u8]| is_below_hidden(&case.built, names);
        let hidden = files(&case.built).into_iter();
        for file in hidden
            .filter(|file| is_hidden(directories_of(file)))
            .take(3)
        {
            let owners = &case.built.owners;
            for allowed in ALLOWED {
                let mut lent = Lent::new(&case.button, owners.len() + EXTRA);
                let told = lent.put(&case.button, (&file.path, b""), allowed);
                assert_eq!(told, no_writes(22, 0));
                lent.holds(&case.button, owners);
                let mut lent = Lent::new(&case.button, owners.len() + EXTRA);
                let told = lent.delete(&case.button, &file.path, allowed);
                assert_eq!(told, no_writes(22, 0));
                lent.holds(&case.button, owners);
                refused += 1;
            }
        }
    });
    assert!(refused > 200, "{refused}");
}
