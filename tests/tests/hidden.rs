//! Hidden directories (document 02, A6): put, delete, careful put and careful delete answer 22 with page 0 where any directory on the path is hidden,
//! after 15 and before 16, and change nothing; read, list, check and mend are as if nothing were hidden.
//!
//! Programs: the library and the second program. The cases written by hand are put to each of them alone, in `library` and `second_program`, with the
//! answers that document 02 gives; the others are put to both, and every answer and every lent byte is compared.
//! The archive is made by `tools/build`.

use common::dumps::dump;
use common::generators::{
    directories_of, files, hidden_places, hidden_plan, is_below_hidden, HIDDEN_PLACES,
};
use common::plans::{is_hidden, overlaid, plan_with, plan_without, Room};
use common::puts::{careful_bytes, labelled_path, random_bytes, room_features};
use common::stops::{careful_edit, edited_plan, with_flipped_bits, Edit as CarefulEdit};
use common::trials::random_allowed;
use common::write_orders::Planned;
use common::{
    answer, both, library as lib, mended, no_writes, run_seeds, table_bytes, Button, Tally,
};
use referee::builder::pages::{path, Pages};
use referee::builder::plan::{BuiltEntry, DirectoryPlan, ImagePlan, Item};
use referee::rng::Rng;
use referee::{list_text, Answer, Listing, Mended, Totals, Writes};

/// What the owner table and the output hold before a call.
const BEFORE: u8 = 0xC7;

/// Bytes of the owner table past the first N records.
const EXTRA: usize = 7;

/// The levels below the root.
const LEVELS: usize = 8;

/// The numbers of writes that are allowed.
const ALLOWED: [u32; 3] = [0, 1, u32::MAX];

/// One of the two programs.
#[derive(Clone, Copy, Debug)]
enum Program {
    Library,
    Second,
}

/// An edit of a path.
#[derive(Clone, Copy, Debug)]
enum Edit<'a> {
    /// With the file's bytes.
    Put(&'a [u8]),
    Delete,
    /// With the file's bytes and the writes allowed.
    CarefulPut(&'a [u8], u32),
    CarefulDelete(u32),
}

/// The puts of these bytes: the plain one, and careful ones with each number of writes.
fn puts(bytes: &[u8]) -> Vec<Edit<'_>> {
    let careful = ALLOWED.map(|allowed| Edit::CarefulPut(bytes, allowed));
    [vec![Edit::Put(bytes)], careful.to_vec()].concat()
}

/// The deletes: the plain one, and careful ones with each number of writes.
fn deletes() -> Vec<Edit<'static>> {
    let careful = ALLOWED.map(Edit::CarefulDelete);
    [vec![Edit::Delete], careful.to_vec()].concat()
}

impl Program {
    /// A check.
    fn check(self, button: &Button, owners: &mut [u8]) -> Totals {
        let (p, n, image) = (button.page_length, button.page_count, &button.image);
        match self {
            Program::Library => lib::check(p, n, image, owners),
            Program::Second => referee::check(p, n, image, owners),
        }
    }

    /// A listing.
    fn list(self, button: &Button, owners: &mut [u8], position: u32) -> Listing {
        let (p, n, image) = (button.page_length, button.page_count, &button.image);
        match self {
            Program::Library => lib::list(p, n, image, owners, position),
            Program::Second => referee::list(p, n, image, owners, position),
        }
    }

    /// The number of a read into an output as long as the image, and the bytes read.
    fn read(self, button: &Button, path: &[u8]) -> (u32, Vec<u8>) {
        let (p, n, image) = (button.page_length, button.page_count, &button.image);
        let mut owners = vec![0; table_bytes(n)];
        let mut out = vec![BEFORE; image.len()];
        let told = match self {
            Program::Library => lib::read(p, n, image, path, &mut out, &mut owners),
            Program::Second => referee::read(p, n, image, path, &mut out, &mut owners),
        };
        out.truncate(told.length as usize);
        (told.number, out)
    }

    /// A mend.
    fn mend(self, button: &mut Button, owners: &mut [u8]) -> Mended {
        let (p, n, image) = (button.page_length, button.page_count, &mut button.image);
        match self {
            Program::Library => lib::mend(p, n, image, owners),
            Program::Second => referee::mend(p, n, image, owners),
        }
    }

    /// An edit; a plain one tells no writes.
    fn edit(self, button: &mut Button, owners: &mut [u8], edit: Edit, path: &[u8]) -> Writes {
        match self {
            Program::Library => library_edit(button, owners, edit, path),
            Program::Second => second_edit(button, owners, edit, path),
        }
    }
}

/// An edit by the library.
fn library_edit(button: &mut Button, owners: &mut [u8], edit: Edit, path: &[u8]) -> Writes {
    let (p, n, image) = (button.page_length, button.page_count, &mut button.image);
    match edit {
        Edit::Put(bytes) => plain(lib::put(p, n, image, path, bytes, owners)),
        Edit::Delete => plain(lib::delete(p, n, image, path, owners)),
        Edit::CarefulPut(bytes, allowed) => {
            lib::careful_put(p, n, image, path, bytes, owners, allowed)
        }
        Edit::CarefulDelete(allowed) => lib::careful_delete(p, n, image, path, owners, allowed),
    }
}

/// An edit by the second program.
fn second_edit(button: &mut Button, owners: &mut [u8], edit: Edit, path: &[u8]) -> Writes {
    let (p, n, image) = (button.page_length, button.page_count, &mut button.image);
    match edit {
        Edit::Put(bytes) => plain(referee::put(p, n, image, path, bytes, owners)),
        Edit::Delete => plain(referee::delete(p, n, image, path, owners)),
        Edit::CarefulPut(bytes, allowed) => {
            referee::careful_put(p, n, image, path, bytes, owners, allowed)
        }
        Edit::CarefulDelete(allowed) => referee::careful_delete(p, n, image, path, owners, allowed),
    }
}

/// The answer of a plain edit, which tells no writes.
fn plain(told: Answer) -> Writes {
    no_writes(told.number, told.page)
}

/// An accepted image with the owner table that it must have.
struct Known {
    button: Button,
    owners: Vec<u8>,
}

impl Known {
    /// Demands of an edit this number with page 0, no writes and nothing left, the image as before and its owner table.
    fn refused(&self, program: Program, edit: Edit, path: &[u8], number: u32) {
        let mut button = self.button.clone();
        let mut owners = vec![BEFORE; self.owners.len() + EXTRA];
        let told = program.edit(&mut button, &mut owners, edit, path);
        assert_eq!(told, no_writes(number, 0), "{edit:?} of {path:?}");
        assert!(button == self.button, "image after {edit:?} of {path:?}");
        let (front, rest) = owners.split_at(self.owners.len());
        assert_eq!(front, self.owners, "owners after {edit:?} of {path:?}");
        assert!(rest.iter().all(|&byte| byte == BEFORE));
    }

    /// Demands that an edit is done: a file put reads back, one deleted is absent; with writes left the file is as it was.
    fn done(&self, program: Program, edit: Edit, path: &[u8]) {
        let mut button = self.button.clone();
        let mut owners = vec![BEFORE; self.owners.len() + EXTRA];
        let told = program.edit(&mut button, &mut owners, edit, path);
        assert_eq!((told.number, told.page), (0, 0), "{edit:?} of {path:?}");
        let expected = match edit {
            Edit::CarefulPut(_, 0) | Edit::CarefulDelete(0) => {
                assert_eq!((told.made, told.left), (0, 1), "{edit:?} of {path:?}");
                program.read(&self.button, path)
            }
            // Marks are written, and nothing else.
            Edit::CarefulPut(_, 1) => return assert_eq!((told.made, told.left), (1, 1)),
            Edit::Put(bytes) | Edit::CarefulPut(bytes, _) => (0, bytes.to_vec()),
            Edit::Delete | Edit::CarefulDelete(_) => (15, Vec::new()),
        };
        if !matches!(edit, Edit::CarefulDelete(1)) {
            assert_eq!(program.read(&button, path), expected, "{edit:?}");
        }
    }

    /// Demands this number of an edit; 0 is done.
    fn answers(&self, program: Program, edit: Edit, path: &[u8], number: u32) {
        match number {
            0 => self.done(program, edit, path),
            _ => self.refused(program, edit, path, number),
        }
    }

    /// Demands 22 of every put and of every delete of a path, whatever the bytes.
    fn hides(&self, program: Program, path: &[u8]) {
        for edit in puts(b"new").into_iter().chain(deletes()) {
            self.refused(program, edit, path, 22);
        }
        for edit in puts(&[1; 2_000]).into_iter().chain(puts(b"")) {
            self.refused(program, edit, path, 22);
        }
    }

    /// Demands that every put and every delete of a path of a file is done.
    fn changes(&self, program: Program, path: &[u8]) {
        for edit in puts(b"new").into_iter().chain(deletes()) {
            self.done(program, edit, path);
        }
    }
}

/// Four bytes of an owner table.
fn record(owner: usize, place: usize) -> [u8; 4] {
    [owner as u8, 0, place as u8, 0]
}

/// A button of 32 pages of 32 bytes with the bitmap in page 0. Directories D1 to D8 stand below each other on pages 1 to 8, those of these levels
/// hidden. The root and each directory have a file F.1 and a read-only file R.2, those of level k on pages 9 + k and 18 + k, and have no space for an
/// entry more but D8. Pages 27 to 31 are free.
fn tower(hidden: &[usize]) -> Known {
    let mut pages = Pages::new(32, 32);
    let mut owners = [[0; 4]; 32];
    owners[0] = record(1, 0);
    for level in 0..=LEVELS {
        let mut body = match level {
            0 => pages.local_control(&(0..27).collect::<Vec<usize>>()),
            1 => pages.sub_control("ROOT", 0),
            _ => pages.sub_control(&format!("D{}", level - 1), level - 1),
        };
        if level < LEVELS {
            let below = level + 1;
            let bit = 0x80 * u8::from(hidden.contains(&below));
            body.extend(pages.entry(&format!("D{below}"), 0x7F | bit, below, 0));
            // D1 to D8 have the walk positions 0 to 7.
            owners[below] = record(3 + level, 0);
        }
        body.extend(pages.entry("F", 1, 9 + level, 1));
        body.extend(pages.entry("R", 0x82, 18 + level, 1));
        pages.packet(level, &body, 0);
        pages.packet(9 + level, format!("file {level}").as_bytes(), 0);
        pages.packet(18 + level, format!("kept {level}").as_bytes(), 0);
        // Then come the files, those of the lowest directory first.
        owners[9 + level] = record(3 + 8 + 2 * (LEVELS - level), 0);
        owners[18 + level] = record(3 + 9 + 2 * (LEVELS - level), 0);
    }
    Known {
        button: Button::from(&pages),
        owners: owners.concat(),
    }
}

/// The path of a file through the first so many directories of the tower.
fn below(level: usize, name: &str, extension: u8) -> Vec<u8> {
    let names: Vec<String> = (1..=level).map(|level| format!("D{level}")).collect();
    let names: Vec<&str> = names.iter().map(String::as_str).collect();
    path(&names, name, extension)
}

/// Which directories are hidden, the levels at which edits are done, and those at which they are 22.
type Row = (&'static [usize], &'static [usize], &'static [usize]);

/// Demands rows.
fn demand_rows(program: Program, rows: &[Row]) {
    for &(hidden, open, closed) in rows {
        let tower = tower(hidden);
        for &level in open {
            tower.changes(program, &below(level, "F", 1));
        }
        for &level in closed {
            tower.hides(program, &below(level, "F", 1));
        }
    }
}

fn without_hidden_directories_edits_are_done(program: Program) {
    demand_rows(program, &[(&[], &[0, 1, 2, 3, 4, 5, 6, 7, 8], &[])]);
}

fn hidden_first_directory_is_22(program: Program) {
    demand_rows(program, &[(&[1], &[0], &[1, 2, 3, 5, 8])]);
}

fn hidden_middle_directory_is_22(program: Program) {
    let rows: [Row; 3] = [
        (&[2], &[0, 1], &[2, 3, 8]),
        (&[4], &[0, 1, 2, 3], &[4, 5, 6, 7, 8]),
        (&[7], &[0, 5, 6], &[7, 8]),
    ];
    demand_rows(program, &rows);
}

fn hidden_last_directory_is_22(program: Program) {
    let rows: [Row; 3] = [
        (&[8], &[0, 1, 4, 7], &[8]),
        (&[3], &[2], &[3]),
        (&[1], &[0], &[1]),
    ];
    demand_rows(program, &rows);
}

fn several_hidden_directories_are_22(program: Program) {
    let rows: [Row; 4] = [
        (&[1, 8], &[0], &[1, 4, 7, 8]),
        (&[3, 5, 6], &[0, 2], &[3, 4, 5, 6, 7, 8]),
        (&[7, 8], &[6], &[7, 8]),
        (&[1, 2, 3, 4, 5, 6, 7, 8], &[0], &[1, 2, 3, 4, 5, 6, 7, 8]),
    ];
    demand_rows(program, &rows);
}

/// Each of the 256 ways to hide directories of a path of eight names, at each level of the path.
fn every_set_of_hidden_directories_is_22_from_its_first_on(program: Program) {
    for set in 0..1_usize << LEVELS {
        let hidden: Vec<usize> = (1..=LEVELS).filter(|k| set >> (k - 1) & 1 == 1).collect();
        let tower = tower(&hidden);
        let first = hidden.first().copied().unwrap_or(LEVELS + 1);
        for level in 0..=LEVELS {
            let number = if level < first { 0 } else { 22 };
            let file = below(level, "F", 1);
            for edit in [Edit::Put(b"n"), Edit::Delete] {
                tower.answers(program, edit, &file, number);
            }
            for edit in [
                Edit::CarefulPut(b"n", u32::MAX),
                Edit::CarefulDelete(u32::MAX),
            ] {
                tower.answers(program, edit, &file, number);
            }
        }
    }
}

fn new_file_in_a_hidden_directory_is_22(program: Program) {
    for (hidden, level, number) in [
        (1, 0, 0),
        (1, 1, 22),
        (1, 8, 22),
        (5, 4, 0),
        (5, 5, 22),
        (8, 8, 22),
    ] {
        for edit in puts(b"new").into_iter().chain(puts(b"")) {
            tower(&[hidden]).answers(program, edit, &below(level, "N", 1), number);
        }
    }
}

/// Hidden (22) is judged before read-only (16).
fn read_only_file_in_a_hidden_directory_is_22(program: Program) {
    for (hidden, level, number) in [
        (1, 0, 16),
        (1, 1, 22),
        (1, 8, 22),
        (5, 4, 16),
        (5, 6, 22),
        (8, 7, 16),
        (8, 8, 22),
    ] {
        let file = below(level, "R", 2);
        for edit in puts(b"new").into_iter().chain(deletes()) {
            tower(&[hidden]).refused(program, edit, &file, number);
        }
    }
}

/// Hidden (22) is judged before room (17): five pages are free, and a replaced file has one.
fn file_without_room_in_a_hidden_directory_is_22(program: Program) {
    let long = vec![7; 6 * 28 + 1];
    for (hidden, level, number) in [
        (1, 0, 17),
        (1, 1, 22),
        (1, 8, 22),
        (5, 4, 17),
        (5, 8, 22),
        (8, 8, 22),
    ] {
        for name in ["F", "N"] {
            for edit in puts(&long) {
                tower(&[hidden]).refused(program, edit, &below(level, name, 1), number);
            }
        }
        for edit in puts(&long) {
            let read_only = if number == 17 { 16 } else { number };
            tower(&[hidden]).refused(program, edit, &below(level, "R", 2), read_only);
        }
    }
}

/// What is missing (15) is judged before what is hidden: a directory, above the hidden one or below it, and for a delete the file.
fn missing_directory_or_file_is_15_before_22(program: Program) {
    for hidden in [1, 4, 8] {
        let tower = tower(&[hidden]);
        for level in 0..LEVELS {
            let names = below(level, "NONE", 0);
            let names = &names[..names.len() - 1];
            let mut paths = vec![[names, b"F   \x01"].concat()];
            if level + 2 <= LEVELS {
                paths.push([names, b"D1  F   \x01"].concat());
                // A file's name in the place of a directory.
                let names = below(level, "F", 1);
                paths.push([&names[..names.len() - 1], b"F   \x01"].concat());
            }
            for path in paths {
                for edit in puts(b"new").into_iter().chain(deletes()) {
                    tower.refused(program, edit, &path, 15);
                }
            }
        }
        for level in 0..=LEVELS {
            for absent in [below(level, "N", 1), below(level, "F", 2)] {
                for edit in deletes() {
                    tower.refused(program, edit, &absent, 15);
                }
            }
        }
    }
}

fn malformed_path_is_14_before_22(program: Program) {
    let tower = tower(&[1, 2, 3, 4, 5, 6, 7, 8]);
    let mut nine = below(LEVELS, "F", 1);
    nine.splice(0..0, *b"D1  ");
    let names = below(3, "F", 1);
    let bad = [
        nine,
        names[..names.len() - 1].to_vec(),
        below(1, "F", 100),
        below(1, "R", 0x82),
        below(8, "f", 1),
        [&b"d1  "[..], b"F   \x01"].concat(),
        b"D1  \x7F".to_vec(),
        b"D1  \xFF".to_vec(),
    ];
    for path in bad {
        for edit in puts(b"new").into_iter().chain(deletes()) {
            tower.refused(program, edit, &path, 14);
        }
    }
}

/// Faults of the image and of the arguments are judged before everything: nothing changes, and no record is told.
fn fault_of_the_image_comes_before_22(program: Program) {
    let good = tower(&[1, 3]).button;
    let mut unsealed = good.pages();
    unsealed.break_check(17);
    let with = |page: usize, place: usize, byte: u8| {
        let mut pages = good.pages();
        pages.alter(page, place, &[byte]);
        Button::from(&pages)
    };
    let broken = [
        (Button::from(&unsealed), 2, 17),
        (with(0, 3, 0x81), 5, 0),
        (with(5, 1, 0xAB), 3, 5),
        // Page 27 is marked, then page 26 is not.
        (with(0, 7, 0x0F), 13, 27),
        (with(0, 7, 0x03), 13, 26),
    ];
    for (button, number, page) in broken {
        for path in [below(1, "F", 1), below(8, "R", 2), below(8, "N", 1)] {
            for edit in puts(b"new").into_iter().chain(deletes()) {
                let mut after = button.clone();
                let mut owners = vec![BEFORE; 128];
                let told = program.edit(&mut after, &mut owners, edit, &path);
                assert_eq!(told, no_writes(number, page), "{edit:?}");
                assert!(after == button && owners.iter().all(|&byte| byte == 0));
            }
        }
    }
    for edit in puts(b"new").into_iter().chain(deletes()) {
        let mut after = good.clone();
        let mut owners = vec![BEFORE; 127];
        let told = program.edit(&mut after, &mut owners, edit, &below(1, "F", 1));
        assert_eq!(told, no_writes(1, 0), "{edit:?}");
        assert!(after == good && owners.iter().all(|&byte| byte == BEFORE));
    }
}

/// Read, list, check and mend of a tower are the same for every set of hidden directories, but for the attribute of a hidden one.
fn read_list_check_and_mend_are_as_without_hidden_directories(program: Program) {
    for set in [0b1_usize, 0b1000, 0b1000_0000, 0b101_0101, 0b1111_1111] {
        let hidden: Vec<usize> = (1..=LEVELS).filter(|k| set >> (k - 1) & 1 == 1).collect();
        let known = tower(&hidden);
        let mut owners = vec![BEFORE; 128];
        let totals = Totals {
            number: 0,
            page: 0,
            used: 27,
            files: 18,
            directories: 8,
        };
        assert_eq!(program.check(&known.button, &mut owners), totals);
        assert_eq!(owners, known.owners);
        for position in 0..27 {
            let listing = program.list(&known.button, &mut owners, position);
            assert_eq!(owners, known.owners);
            let place = position as usize;
            let expected = match place {
                0..=7 => Listing {
                    level: position,
                    name: u32::from_le_bytes([b'D', b'1' + place as u8, b' ', b' ']),
                    extension: 127,
                    attribute: u32::from(hidden.contains(&(place + 1))),
                    start: position + 1,
                    ..Listing::default()
                },
                8..=25 => listed_file(place),
                _ => Listing {
                    number: 15,
                    ..Listing::default()
                },
            };
            assert_eq!(listing, expected, "position {position}");
        }
        for level in 0..=LEVELS {
            let file = format!("file {level}").into_bytes();
            let kept = format!("kept {level}").into_bytes();
            assert_eq!(
                program.read(&known.button, &below(level, "F", 1)),
                (0, file)
            );
            assert_eq!(
                program.read(&known.button, &below(level, "R", 2)),
                (0, kept)
            );
            assert_eq!(program.read(&known.button, &below(level, "N", 1)).0, 15);
        }
        let mut button = known.button.clone();
        assert_eq!(program.mend(&mut button, &mut owners), mended(0));
        // Pages 27 and 30 are marked though no chain has them.
        let mut pages = button.pages();
        pages.alter(0, 7, &[0b100_1111]);
        let mut marked = Button::from(&pages);
        assert_eq!(program.mend(&mut marked, &mut owners), mended(2));
        assert!(marked == known.button && owners == known.owners);
    }
}

/// The listing of a file of the tower, by its walk position from 8 to 25.
fn listed_file(position: usize) -> Listing {
    let level = LEVELS - (position - 8) / 2;
    let is_kept = position % 2 == 1;
    let (name, extension, start) = match is_kept {
        true => (*b"R   ", 2, 18 + level),
        false => (*b"F   ", 1, 9 + level),
    };
    Listing {
        number: 0,
        page: 0,
        level: level as u32,
        name: u32::from_le_bytes(name),
        extension,
        attribute: u32::from(is_kept),
        start: start as u32,
        pages: 1,
        length: 6,
    }
}

/// A button of 16 pages: in the root the directories A and B, a file A.1 and a second page with a file X.1; in A a directory C; in B a directory C; in
/// each C a file F.1. The bytes are the extension bytes of A, B, A.1, and of C below A and below B, and a slot before the entry of A.
fn pair([a, b, file, c_of_a, c_of_b]: [u8; 5], stamp: &[u8]) -> Known {
    let mut pages = Pages::new(40, 16);
    let mut root = pages.local_control(&(0..10).collect::<Vec<usize>>());
    root.extend(stamp);
    root.extend(pages.entry("A", a, 1, 0));
    root.extend(pages.entry("B", b, 2, 0));
    let mut second = pages.entry("A", file, 8, 1);
    second.extend(pages.entry("X", 1, 9, 1));
    pages.packet(0, &root, 7).packet(7, &second, 0);
    for (page, extension) in [(1, c_of_a), (2, c_of_b)] {
        let below = page + 2;
        let mut body = pages.sub_control("ROOT", 0);
        body.extend(pages.entry("C", extension, below, 0));
        pages.packet(page, &body, 0);
        let mut body = pages.sub_control(["A", "B"][page - 1], page);
        body.extend(pages.entry("F", 1, below + 2, 1));
        pages.packet(below, &body, 0);
        pages.packet(below + 2, b"file", 0);
    }
    pages.packet(8, b"a", 0).packet(9, b"x", 0);
    // A, C and F are 0 to 2, B, C and F are 3 to 5, A.1 is 6 and X.1 is 7.
    let owned = [
        (0, 1),
        (1, 3),
        (2, 6),
        (3, 4),
        (4, 7),
        (5, 5),
        (6, 8),
        (8, 9),
        (9, 10),
    ];
    let mut owners = [[0; 4]; 16];
    for (page, owner) in owned {
        owners[page] = record(owner, 0);
    }
    owners[7] = record(1, 1);
    Known {
        button: Button::from(&pages),
        owners: owners.concat(),
    }
}

/// The files of a pair: below A, below B, A.1 and X.1 in the root.
fn files_of_pair() -> [Vec<u8>; 4] {
    [
        path(&["A", "C"], "F", 1),
        path(&["B", "C"], "F", 1),
        path(&[], "A", 1),
        path(&[], "X", 1),
    ]
}

/// A hidden directory hides what is below it, and nothing below a directory beside it, which may have the same name.
fn hidden_directory_beside_the_path_does_not_matter(program: Program) {
    for (bytes, hidden) in [
        ([0xFF, 0x7F, 1, 0x7F, 0x7F], [true, false]),
        ([0x7F, 0xFF, 1, 0x7F, 0x7F], [false, true]),
        ([0x7F, 0x7F, 1, 0xFF, 0x7F], [true, false]),
        ([0x7F, 0x7F, 1, 0x7F, 0xFF], [false, true]),
        ([0xFF, 0x7F, 1, 0x7F, 0xFF], [true, true]),
    ] {
        let pair = pair(bytes, &[]);
        let [below_a, below_b, file, other] = files_of_pair();
        for (path, is_hidden) in [(below_a, hidden[0]), (below_b, hidden[1])] {
            match is_hidden {
                true => pair.hides(program, &path),
                false => pair.changes(program, &path),
            }
        }
        pair.changes(program, &file);
        pair.changes(program, &other);
    }
}

/// The top bit of a file's extension makes the file read-only: it hides nothing, not even below a directory of the same name.
fn read_only_file_hides_nothing(program: Program) {
    let pair = pair([0x7F, 0x7F, 0x81, 0x7F, 0x7F], &[]);
    let [below_a, below_b, file, other] = files_of_pair();
    for path in [below_a, below_b, other] {
        pair.changes(program, &path);
    }
    for edit in puts(b"new").into_iter().chain(deletes()) {
        pair.refused(program, edit, &file, 16);
    }
}

/// A stamp that looks like the entry of a hidden directory hides nothing; one that looks like an open directory opens nothing.
fn stamp_of_a_directory_does_not_matter(program: Program) {
    let stamp = |extension: u8| vec![b'A' | 0x80, b' ', b' ', b' ', extension, 1, 0];
    let [below_a, below_b, file, _] = files_of_pair();
    let open = pair([0x7F, 0x7F, 1, 0x7F, 0x7F], &stamp(0xFF));
    let closed = pair([0xFF, 0x7F, 1, 0x7F, 0x7F], &stamp(0x7F));
    open.changes(program, &below_a);
    closed.hides(program, &below_a);
    for known in [open, closed] {
        known.changes(program, &below_b);
        known.changes(program, &file);
    }
}

/// Page numbers of two bytes, a bitmap file, and the entry of the hidden directory on a later page of the root.
fn hidden_directory_of_a_large_button_is_22(program: Program) {
    for (extension, number) in [(0x7F, 0), (0xFF, 22)] {
        let mut pages = Pages::new(64, 300);
        let mut root = pages.file_control(1, 1);
        root.extend(pages.entry("X", 1, 299, 1));
        pages.packet(0, &root, 280);
        let second = pages.entry("LAB", extension, 270, 0);
        pages.packet(280, &second, 0);
        let mut lab = pages.sub_control("ROOT", 0);
        lab.extend(pages.entry("F", 1, 271, 1));
        pages.packet(270, &lab, 0);
        pages.packet(271, b"file", 0).packet(299, b"x", 0);
        let mut bits = [0; 38];
        for page in [0, 1, 270, 271, 280, 299] {
            bits[page / 8] |= 1 << (page % 8);
        }
        pages.packet(1, &bits, 0);
        let mut owners = vec![[0; 4]; 300];
        for (page, owner, place) in [
            (0, 1, 0),
            (280, 1, 1),
            (1, 2, 0),
            (299, 3, 0),
            (270, 4, 0),
            (271, 5, 0),
        ] {
            owners[page] = record(owner, place);
        }
        let known = Known {
            button: Button::from(&pages),
            owners: owners.concat(),
        };
        known.changes(program, &path(&[], "X", 1));
        for edit in puts(b"new") {
            known.answers(program, edit, &path(&["LAB"], "F", 1), number);
            known.answers(program, edit, &path(&["LAB"], "N", 1), number);
        }
        for edit in deletes() {
            known.answers(program, edit, &path(&["LAB"], "F", 1), number);
        }
    }
}

/// A test of each rule, for the second program alone and for the library alone.
macro_rules! rules {
    ($($rule:ident,)*) => {
        mod second_program {
            $(#[test] fn $rule() { super::$rule(super::Program::Second); })*
        }
        mod library {
            $(#[test] fn $rule() { super::$rule(super::Program::Library); })*
        }
    };
}

rules!(
    without_hidden_directories_edits_are_done,
    hidden_first_directory_is_22,
    hidden_middle_directory_is_22,
    hidden_last_directory_is_22,
    several_hidden_directories_are_22,
    every_set_of_hidden_directories_is_22_from_its_first_on,
    new_file_in_a_hidden_directory_is_22,
    read_only_file_in_a_hidden_directory_is_22,
    file_without_room_in_a_hidden_directory_is_22,
    missing_directory_or_file_is_15_before_22,
    malformed_path_is_14_before_22,
    fault_of_the_image_comes_before_22,
    read_list_check_and_mend_are_as_without_hidden_directories,
    hidden_directory_beside_the_path_does_not_matter,
    read_only_file_hides_nothing,
    stamp_of_a_directory_does_not_matter,
    hidden_directory_of_a_large_button_is_22,
);

/// The directory with no directory below it hidden.
fn opened(directory: &DirectoryPlan) -> DirectoryPlan {
    let items = directory.items.iter().map(|item| match item {
        Item::Directory {
            name, directory, ..
        } => Item::Directory {
            name: *name,
            hidden: false,
            directory: opened(directory),
        },
        Item::File(file) => Item::File(file.clone()),
    });
    DirectoryPlan {
        items: items.collect(),
        ..directory.clone()
    }
}

/// The plan with no directory hidden.
fn opened_plan(plan: &ImagePlan) -> ImagePlan {
    ImagePlan {
        root: opened(&plan.root),
        ..plan.clone()
    }
}

/// A plan with hidden directories, and the same with none hidden, each with its image.
struct Twins {
    hidden: Planned,
    opened: Planned,
}

impl Twins {
    /// Twins of a random plan.
    fn random(rng: &mut Rng) -> Twins {
        let plan = hidden_plan(rng);
        Twins {
            opened: Planned::new(opened_plan(&plan)),
            hidden: Planned::new(plan),
        }
    }

    /// The entries of hidden directories.
    fn hidden_entries(&self) -> Vec<&BuiltEntry> {
        let entries = self.hidden.built.entries.iter();
        let is_hidden =
            |entry: &&BuiltEntry| entry.listing.extension == 127 && entry.listing.attribute == 1;
        entries.filter(is_hidden).collect()
    }

    /// The number that an edit of the opened image answers, for one that is 22 in the hidden one.
    fn answer_if_opened(&self, path: &[u8], bytes: Option<&[u8]>) -> u32 {
        let plan = &self.opened.plan;
        match bytes {
            Some(bytes) => plan_with(plan, path, bytes).err().unwrap_or(0),
            None => edited_plan(plan, path, &CarefulEdit::Delete)
                .err()
                .unwrap_or(0),
        }
    }
}

/// An image with hidden directories differs from the same one with none hidden in the top bits of their extensions and in the checks of their pages.
/// Check, list, read and mend differ in the attribute of their entries alone.
#[test]
fn hidden_directories_change_nothing_for_those_who_read() {
    let mut tally = Tally::default();
    run_seeds(0xF600_0000..0xF600_0000 + 600, |_, rng| {
        let twins = Twins::random(rng);
        let hidden = Button::from(&twins.hidden.built);
        let opened = Button::from(&twins.opened.built);
        let mut pages = hidden.pages();
        for entry in twins.hidden_entries() {
            assert_eq!(pages.page(entry.page)[entry.offset + 4], 0xFF);
            pages.alter(entry.page, entry.offset + 4, &[0x7F]);
            tally.add("hidden directories");
        }
        assert!(Button::from(&pages) == opened, "only their bits differ");
        assert_eq!(hidden.check(), opened.check());
        let entries = &twins.hidden.built.entries;
        for (position, entry) in entries.iter().enumerate().take(40) {
            let (listing, owners) = hidden.list(position as u32);
            let (plain, plain_owners) = opened.list(position as u32);
            assert_eq!((listing, &owners), (entry.listing, &plain_owners));
            match listing.extension {
                127 => assert_eq!(
                    Listing {
                        attribute: 0,
                        ..listing
                    },
                    plain
                ),
                _ => assert_eq!(listing, plain),
            }
        }
        for file in files(&twins.hidden.built).into_iter().take(40) {
            assert_eq!(hidden.read(&file.path), (0, file.bytes.clone()));
            assert_eq!(opened.read(&file.path), (0, file.bytes.clone()));
            if is_below_hidden(&twins.hidden.built, directories_of(file)) {
                tally.add("files read below hidden directories");
            }
        }
        demand_text_alike(&hidden, &opened, twins.hidden_entries().len());
        demand_mended_alike(&twins, rng, &mut tally);
    });
    tally.print();
    tally.demand(
        500,
        &["hidden directories", "files read below hidden directories"],
    );
    tally.demand(500, &["marks cleared"]);
}

/// Demands the same text of `list` for both images, but for an `h` in so many lines.
fn demand_text_alike(hidden: &Button, opened: &Button, count: usize) {
    let text = |button: &Button| {
        let (p, n) = (button.page_length as u16, button.page_count as u16);
        let dump = dump(p, n, 8, &button.image);
        String::from_utf8(list_text(&dump)).expect("ASCII")
    };
    let (hidden, opened) = (text(hidden), text(opened));
    if opened.starts_with("refused 19") {
        // The image is too long for a dump.
        return assert_eq!(hidden, opened);
    }
    assert_eq!(hidden.replace(" 127 h ", " 127 - "), opened);
    assert_eq!(hidden.matches(" 127 h ").count(), count);
}

/// Demands the same of a mend of both images with the same marks that no chain has.
fn demand_mended_alike(twins: &Twins, rng: &mut Rng, tally: &mut Tally) {
    let used = twins.hidden.used();
    let mut free: Vec<usize> = (0..used.len()).filter(|&page| !used[page]).collect();
    rng.shuffle(&mut free);
    free.truncate(rng.below(6));
    for planned in [&twins.hidden, &twins.opened] {
        let button = Button::from(&planned.built);
        let mut marked = with_flipped_bits(&button, planned, &free);
        let (told, owners) = marked.mend();
        assert_eq!(told, mended(free.len() as u32));
        assert_eq!(owners, button.check().1);
        assert!(marked == button, "as before the marks");
    }
    tally.add_times("marks cleared", free.len() as u32);
}

/// A path for an edit, often one of a file below a hidden directory or, for a put, of a new file there.
fn path_below(planned: &Planned, puts: bool, rng: &mut Rng) -> Vec<u8> {
    let (plan, built) = (&planned.plan, &planned.built);
    let is_such = |file: &&BuiltEntry| is_below_hidden(built, directories_of(file));
    let hidden: Vec<&BuiltEntry> = files(built).into_iter().filter(is_such).collect();
    match (rng.below(4), rng.pick(&hidden)) {
        (0, Some(file)) => file.path.clone(),
        (1, Some(file)) if puts => [directories_of(file), b"NEW'\x07"].concat(),
        _ => labelled_path(plan, built, rng).1,
    }
}

/// Counts an answer of a call, and for 22 which directories are hidden and what the call would answer if none were.
fn count(
    call: &str,
    number: u32,
    twins: &Twins,
    path: &[u8],
    opened: impl FnOnce() -> u32,
    tally: &mut Tally,
) {
    tally.add(format!("{call} {number}"));
    if number == 22 {
        let names = &path[..path.len() - 5];
        let places = hidden_places(&twins.hidden.built, names).expect("a hidden directory");
        tally.add(format!("{call}: {places}"));
        tally.add(format!("{call} 22, else {}", opened()));
        if names.len() == 32 {
            tally.add(format!("{call} 22 at level eight"));
        }
    }
}

/// A put to a copy of the image with hidden directories, as known by construction.
fn known_put(twins: &Twins, path: &[u8], rng: &mut Rng, tally: &mut Tally) {
    let plan = &twins.hidden.plan;
    let bytes = random_bytes(plan, path, rng);
    let before = Button::from(&twins.hidden.built);
    let mut button = before.clone();
    let (told, owners) = button.put(path, &bytes);
    match plan_with(plan, path, &bytes) {
        Ok(next) => {
            assert_eq!(told, answer(0, 0), "known by construction");
            assert!(button.image == overlaid(&before, &next.build()));
        }
        Err(number) => {
            assert_eq!(told, answer(number, 0), "known by construction");
            assert!(button == before && owners == before.check().1);
        }
    }
    let opened = || twins.answer_if_opened(path, Some(&bytes));
    count("put", told.number, twins, path, opened, tally);
    if let (22, Ok(room)) = (told.number, Room::anywhere(plan, path)) {
        for label in room_features(&room, &bytes) {
            tally.add(format!("{label}: 22"));
        }
    }
}

/// A delete from a copy of the image with hidden directories, as known by construction.
fn known_delete(twins: &Twins, path: &[u8], tally: &mut Tally) {
    let plan = &twins.hidden.plan;
    let before = Button::from(&twins.hidden.built);
    let mut button = before.clone();
    let (told, owners) = button.delete(path);
    match edited_plan(plan, path, &CarefulEdit::Delete) {
        Ok(next) => {
            assert_eq!(told, answer(0, 0), "known by construction");
            assert!(button.image == overlaid(&before, &next.build()));
        }
        Err(number) => {
            assert_eq!(told, answer(number, 0), "known by construction");
            assert!(button == before && owners == before.check().1);
        }
    }
    let opened = || twins.answer_if_opened(path, None);
    count("delete", told.number, twins, path, opened, tally);
}

/// A careful put or delete, with some writes allowed, of a copy of the image with hidden directories, as known by construction.
fn known_careful(twins: &Twins, path: &[u8], edit: CarefulEdit, rng: &mut Rng, tally: &mut Tally) {
    let plan = &twins.hidden.plan;
    let before = Button::from(&twins.hidden.built);
    let mut button = before.clone();
    let allowed = random_allowed(rng);
    let told = careful_edit(&mut button, path, &edit, allowed, rng);
    match edited_plan(plan, path, &edit) {
        Ok(next) => {
            assert_eq!((told.number, told.page), (0, 0), "known by construction");
            if told.left == 0 {
                assert!(button.image == overlaid(&before, &next.build()));
            }
        }
        Err(number) => {
            assert_eq!(told, no_writes(number, 0), "known by construction");
            assert!(button == before, "image after {number}");
        }
    }
    let call = match edit {
        CarefulEdit::Put(_) => "careful put",
        CarefulEdit::Delete => "careful delete",
    };
    let opened = || {
        edited_plan(&twins.opened.plan, path, &edit)
            .err()
            .unwrap_or(0)
    };
    count(call, told.number, twins, path, opened, tally);
}

/// The four calls on random images with many hidden directories, by the library and the second program; answers and images are the plan's.
#[test]
fn edits_of_random_images_are_22_exactly_below_hidden_directories() {
    let mut tally = Tally::default();
    run_seeds(0xF700_0000..0xF700_0000 + 2_500, |_, rng| {
        let twins = Twins::random(rng);
        for _ in 0..2 {
            let path = path_below(&twins.hidden, true, rng);
            known_put(&twins, &path, rng, &mut tally);
            let path = path_below(&twins.hidden, false, rng);
            known_delete(&twins, &path, &mut tally);
            let path = path_below(&twins.hidden, true, rng);
            let bytes = careful_bytes(&twins.hidden.plan, &path, rng);
            known_careful(&twins, &path, CarefulEdit::Put(bytes), rng, &mut tally);
            let path = path_below(&twins.hidden, false, rng);
            known_careful(&twins, &path, CarefulEdit::Delete, rng, &mut tally);
        }
    });
    tally.print();
    for call in ["put", "delete", "careful put", "careful delete"] {
        tally.demand_numbers(call, 100, [0, 14, 15]);
        tally.demand_numbers(call, 20, [16]);
        tally.demand_numbers(call, 1_000, [22]);
        for places in HIDDEN_PLACES {
            tally.demand(20, &[&format!("{call}: {places}")]);
        }
        for number in [0, 16] {
            tally.demand(50, &[&format!("{call} 22, else {number}")]);
        }
        tally.demand(20, &[&format!("{call} 22 at level eight")]);
    }
    for call in ["put", "careful put"] {
        tally.demand_numbers(call, 50, [17]);
        tally.demand(50, &[&format!("{call} 22, else 17")]);
    }
    let rooms = [
        "new file, pages to spare: 22",
        "new file, one page too few: 22",
        "directory must grow, pages to spare: 22",
        "directory must grow, one page too few: 22",
        "replaced file, pages to spare: 22",
        "replaced file, one page too few: 22",
        "every page in use, new file: 22",
    ];
    tally.demand(20, &rooms);
}

/// What is hidden stays so, and what is below it stays as it is, whatever else is put and deleted.
#[test]
fn files_below_hidden_directories_outlive_all_edits() {
    let mut kept = 0;
    let mut done = 0;
    run_seeds(0xF800_0000..0xF800_0000 + 250, |_, rng| {
        let mut plan = hidden_plan(rng);
        let built = plan.build();
        let mut button = Button::from(&built);
        let table = table_bytes(button.page_count);
        for _ in 0..25 {
            let is_put = rng.chance(50);
            let path = path_below(&Planned::new(plan.clone()), is_put, rng);
            let expected = match is_put {
                true => {
                    let bytes = random_bytes(&plan, &path, rng);
                    let told = both::put(&mut button, table, &path, &bytes, rng);
                    let expected = plan_with(&plan, &path, &bytes);
                    assert_eq!(
                        told,
                        answer(expected.as_ref().err().copied().unwrap_or(0), 0)
                    );
                    expected
                }
                false => {
                    let told = both::delete(&mut button, table, &path, rng);
                    let expected = edited_plan(&plan, &path, &CarefulEdit::Delete);
                    assert_eq!(
                        told,
                        answer(expected.as_ref().err().copied().unwrap_or(0), 0)
                    );
                    expected
                }
            };
            if let Ok(next) = expected {
                plan = next;
                done += 1;
            }
        }
        for file in files(&built).into_iter().take(60) {
            if is_hidden(&plan, &file.path) {
                assert_eq!(button.read(&file.path), (0, file.bytes.clone()));
                assert!(plan_without(&plan, &file.path).is_some(), "still planned");
                kept += 1;
            }
        }
        let listed: Vec<u32> = button.list_all().iter().map(|entry| entry.name).collect();
        let planned = plan.build();
        let names: Vec<u32> = planned
            .entries
            .iter()
            .map(|entry| entry.listing.name)
            .collect();
        assert_eq!(listed, names);
    });
    println!("{kept} files kept, {done} edits done");
    assert!(kept > 1_000 && done > 500, "{kept} kept, {done} done");
}
