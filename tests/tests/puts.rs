//! Puts. Where an image is known by construction, so are the answer and the image afterwards.
//!
//! Programs: the library and the second program. Each call is made by both; every answer and every lent byte is compared.
//! The archive is made by `tools/build`.

use common::generators::{
    any_button, counted_owner_bytes, deep_image, faulty_case, files, flip, is_enough,
    labelled_local, largest_image, misfit, random_sizes, OWNER_TABLES,
};
use common::plans::{formatted_plan, is_path, may_be_local, overlaid, plan_with, Room};
use common::puts::{
    count_room, done_features, labelled_path, random_bytes, thinned_plan, used_plan, DONE, ENTRIES,
    ROOM, STAMPED,
};
use common::trials::Trial;
use common::{answer, both, run_seeds, table_bytes, Button, Seed, Tally};
use referee::builder::pages::{path, Pages};
use referee::builder::plan::{Built, ImagePlan};
use referee::builder::random::random_name;
use referee::rng::Rng;
use referee::Answer;

/// The labels of paths with the answers that a put must have given to them.
const PATHS: [&str; 24] = [
    "path of a file to replace: 0",
    "path of a file to replace: 17",
    "path of a new file: 0",
    "path of a new file: 17",
    "path of a file: 0",
    "path of a read-only file: 16",
    "path of a file to replace: 22",
    "path of a new file: 22",
    "path below a hidden directory: 22",
    "path of a read-only file below a hidden directory: 22",
    "path of a file with any extension number: 0",
    "path of a file with the top bit: 14",
    "path of a file with an extension above 99: 14",
    "path with a file's name in the place of a directory: 15",
    "path cut short: 14",
    "path with a byte more: 14",
    "path with a bit flipped: 14",
    "path with a name more: 14",
    "path with a name more: 15",
    "path of a directory: 14",
    "path of a directory with its extension: 14",
    "path with a directory's name in the place of a file: 0",
    "path of any bytes: 14",
    "path of any names: 15",
];

/// A plan, its image, and the counts of what was met.
struct Planned<'a> {
    plan: &'a ImagePlan,
    built: &'a Built,
    tally: &'a mut Tally,
}

impl Planned<'_> {
    /// Puts bytes to a path in a copy of the image; the answer and the image afterwards are the plan's.
    fn put(&mut self, label: &str, path: &[u8], bytes: &[u8], rng: &mut Rng) {
        let mut button = Button::from(self.built);
        let owner_bytes = counted_owner_bytes(button.page_count, rng, self.tally);
        let told = both::put(&mut button, owner_bytes, path, bytes, rng);
        self.tally.add("puts");
        self.tally.add(format!("put {}", told.number));
        if !is_enough(button.page_count, owner_bytes) {
            assert_eq!(told, answer(1, 0));
            return;
        }
        self.tally.add(format!("{label}: {}", told.number));
        if let Ok(room) = Room::of(self.plan, path) {
            count_room(&room, bytes, told.number, self.tally);
        }
        match plan_with(self.plan, path, bytes) {
            Ok(plan) => self.demand_with(&plan, path, told, &button, rng),
            Err(number) => assert_eq!(told, answer(number, 0), "known by construction"),
        }
    }

    /// Demands the image of the plan with the file, laid over the image as it was, and a check that tells of it.
    fn demand_with(
        &mut self,
        plan: &ImagePlan,
        path: &[u8],
        told: Answer,
        button: &Button,
        rng: &mut Rng,
    ) {
        assert_eq!(told, answer(0, 0), "known by construction");
        let with = plan.build();
        let expected = overlaid(&Button::from(self.built), &with);
        assert!(button.image == expected, "known by construction");
        let table = table_bytes(button.page_count);
        assert_eq!(both::check(button, table, rng), with.totals);
        for label in done_features(self.built, &with, path) {
            self.tally.add(label);
        }
    }
}

/// Puts of new files, over files that are there, and to paths near them, in images with scattered chains, odd packets, nested directories,
/// full directories and few pages free.
#[test]
fn puts_into_sound_images_leave_the_planned_image() {
    let mut tally = Tally::default();
    run_seeds(0xC000_0000..0xC000_0000 + 3_500, |seed, rng| {
        let plan = used_plan(seed, rng);
        let built = plan.build();
        let mut planned = Planned {
            plan: &plan,
            built: &built,
            tally: &mut tally,
        };
        for _ in 0..3 {
            let (label, path) = labelled_path(&plan, &built, rng);
            let bytes = random_bytes(&plan, &path, rng);
            planned.put(label, &path, &bytes, rng);
        }
    });
    tally.print();
    tally.demand(10_000, &["puts"]);
    tally.demand(20, &DONE);
    tally.demand(20, &ENTRIES);
    tally.demand(20, &ROOM);
    tally.demand(20, &STAMPED);
    tally.demand(10, &PATHS);
    tally.demand(20, &OWNER_TABLES);
    tally.demand_numbers("put", 100, [0, 1, 14, 15, 16, 17, 22]);
}

/// Forty puts on one image, one after the other; after each the file and another are read.
#[test]
fn puts_one_after_the_other_leave_the_planned_images() {
    let mut tally = Tally::default();
    run_seeds(0xC100_0000..0xC100_0000 + 100, |_, rng| {
        let mut plan = thinned_plan(rng);
        let mut built = plan.build();
        let mut button = Button::from(&built);
        let table = table_bytes(button.page_count);
        for _ in 0..40 {
            let (_, path) = labelled_path(&plan, &built, rng);
            let length = rng.below(2 * button.page_length as usize);
            let bytes = rng.bytes(length);
            let before = button.clone();
            let told = both::put(&mut button, table + 3, &path, &bytes, rng);
            tally.add(format!("put {}", told.number));
            match plan_with(&plan, &path, &bytes) {
                Ok(next) => plan = next,
                Err(number) => {
                    assert_eq!(told, answer(number, 0), "known by construction");
                    continue;
                }
            }
            assert_eq!(told, answer(0, 0), "known by construction");
            built = plan.build();
            let expected = overlaid(&before, &built);
            assert!(button.image == expected, "known by construction");
            assert_eq!(both::check(&button, table, rng), built.totals);
            for path in [Some(path), some_path(&built, rng)].into_iter().flatten() {
                demand_file(&button, &built, &path, rng);
            }
        }
    });
    tally.print();
    tally.demand_numbers("put", 50, [0, 14, 15, 16, 17, 22]);
}

/// The path of a file that is there.
fn some_path(built: &Built, rng: &mut Rng) -> Option<Vec<u8>> {
    let files = files(built);
    rng.pick(&files).map(|file| file.path.clone())
}

/// Demands a file's bytes from a read with both.
fn demand_file(button: &Button, built: &Built, path: &[u8], rng: &mut Rng) {
    let mut found = files(built).into_iter();
    let file = found
        .find(|file| file.path == path)
        .expect("the plan has the file");
    let table = table_bytes(button.page_count);
    let (_, bytes) = both::read_bytes(button, table, path, file.bytes.len(), rng);
    assert_eq!(bytes, file.bytes);
}

/// Each number from 2 to 13, with the page known; pairs of them; damage of any kind; arguments that do not fit.
#[test]
fn puts_into_faulty_images_tell_the_fault() {
    let mut tally = Tally::default();
    run_seeds(0xC200_0000..0xC200_0000 + 2_500, |seed, rng| {
        let case = faulty_case(seed, rng);
        let mut trial = Trial {
            case: &case,
            rng,
            tally: &mut tally,
        };
        trial.put();
        trial.put();
    });
    tally.print();
    tally.demand(5_000, &["puts"]);
    tally.demand_numbers("put", 40, 1..=13);
}

/// Every page count from 2 to 300 with pages of 32 bytes: a file on all free pages, one byte more, its replacement, and one file more.
#[test]
fn file_on_all_free_pages_is_put_and_one_byte_more_is_17() {
    run_seeds(0xC300_0000 + 2..0xC300_0000 + 301, |seed, rng| {
        let page_count = (seed - 0xC300_0000) as u32;
        let table = table_bytes(page_count);
        for local in [false, true] {
            if local && !may_be_local(page_count) {
                continue;
            }
            let built = formatted_plan(32, page_count, local).build();
            let packet = if page_count > 256 { 27 } else { 28 };
            let free = (page_count - built.totals.used) as usize;
            let bytes = rng.bytes(packet * free + 1);
            let most = &bytes[1..];
            let mut button = Button::from(&built);
            let mut puts: Vec<(&[u8], &[u8], u32)> = vec![(b"ALL \x01", &bytes, 17)];
            if free == 0 {
                puts = vec![(b"ALL \x01", b"", 17)];
            } else {
                puts.push((b"ALL \x01", most, 0));
                puts.push((b"ALL \x01", &bytes, 17));
                puts.push((b"ALL \x01", &bytes[..most.len()], 0));
                puts.push((b"MORE\x01", b"", 17));
                puts.push((b"ALL \x01", b"", 0));
            }
            for (path, bytes, number) in puts {
                let told = both::put(&mut button, table, path, bytes, rng);
                assert_eq!(told, answer(number, 0));
            }
            let used = both::check(&button, table, rng).used;
            assert_eq!(used, built.totals.used + u32::from(free > 0));
        }
    });
}

/// Puts into images of 65,535 pages: over the first, the last and some other file, of a new one, and of one for which there is no room.
#[test]
fn puts_into_65535_pages_are_done_or_refused_as_known() {
    let shapes = [
        (32, 150, 40, 40),
        (33, 300, 500, 10),
        (64, 60, 2_000, 0),
        (256, 100, 800, 5),
    ];
    for (place, (page_length, entries, file_pages, directory_percent)) in
        shapes.into_iter().enumerate()
    {
        let seed = 0xC400_0000 + place as u64;
        let _seed = Seed(seed);
        let mut rng = Rng::new(seed);
        let built = largest_image(page_length, entries, file_pages, directory_percent, seed);
        let mut button = Button::from(&built);
        let files = files(&built);
        let last = files.len() - 1;
        let any = rng.between(1, last - 1);
        for entry in [files[last], files[0], files[any]] {
            let length = entry.bytes.len() / 2;
            let bytes = rng.bytes(length);
            let told = both::put(&mut button, 262_141, &entry.path, &bytes, &mut rng);
            let expected = if entry.listing.attribute == 1 { 16 } else { 0 };
            assert_eq!(told, answer(expected, 0));
        }
        let totals = both::check(&button, 262_140, &mut rng);
        assert_eq!(totals.number, 0);
        let free = (65_535 - totals.used) as usize;
        let bytes = rng.bytes(free * (page_length as usize - 5) + 1);
        let told = both::put(&mut button, 262_140, b"N E\x01", &bytes, &mut rng);
        assert_eq!(told, answer(14, 0));
        let told = both::put(&mut button, 262_140, b"NEW'\x01", &bytes, &mut rng);
        assert_eq!(told, answer(17, 0));
        let few = &bytes[..bytes.len().min(3_000) / 3];
        let told = both::put(&mut button, 262_140, b"NEW'\x01", few, &mut rng);
        assert_eq!(told, answer(0, 0));
        flip(&mut button.image, &mut rng);
        both::put(&mut button, 262_140, &files[any].path, b"", &mut rng);
    }
}

/// Any numbers, image, path, bytes and table: the put answers as the second program's does, also after a format.
#[test]
fn puts_with_any_arguments_are_the_second_programs() {
    let mut tally = Tally::default();
    run_seeds(0xC800_0000..0xC800_0000 + 4_000, |_, rng| {
        let (mut button, table) = any_button(rng);
        let path_bytes = rng.below(60);
        let bad_path = rng.bytes(path_bytes);
        let mut good_path = random_name(rng).to_vec();
        good_path.push(rng.below(100) as u8);
        let length = [0, rng.below(100), rng.below(20_000)][rng.below(3)];
        let bytes = rng.bytes(length);
        let told = both::put(&mut button, table, &bad_path, &bytes, rng);
        tally.add("puts");
        tally.add(format!("put {}", told.number));
        let local = labelled_local(rng).1;
        let formatted = both::format(&mut button, table, local, rng).number == 0;
        for path in [&bad_path, &good_path] {
            let told = both::put(&mut button, table, path, &bytes, rng);
            tally.add("puts");
            tally.add(format!("put after format {}", told.number));
            assert!(!formatted || [0, 14, 15, 17].contains(&told.number));
            assert!(!formatted || is_path(path) == (told.number != 14));
        }
    });
    tally.print();
    tally.demand(10_000, &["puts"]);
    tally.demand_numbers("put", 100, [1, 2]);
    tally.demand_numbers("put after format", 100, [0, 1, 2, 14, 17]);
}

/// Slices of no bytes.
#[test]
fn put_of_empty_slices_is_1_or_14_or_an_empty_file() {
    let seed = Seed(0xC810_0000);
    let mut rng = Rng::new(seed.0);
    for (page_length, page_count) in [(0, 0), (32, 0), (32, 2), (256, 65_535)] {
        let mut button = Button {
            page_length,
            page_count,
            image: Vec::new(),
        };
        for table in 0..10 {
            let told = both::put(&mut button, table, b"", b"", &mut rng);
            assert_eq!(told, answer(1, 0));
        }
    }
    let mut button = Button::formatted(32, 16, true);
    for (table, path, number) in [
        (64, &b""[..], 14),
        (0, b"", 1),
        (0, b"A   \x01", 1),
        (63, b"A   \x01", 1),
        (64, b"A   \x01", 0),
        (64, b"A   \x01", 0),
    ] {
        let told = both::put(&mut button, table, path, b"", &mut rng);
        assert_eq!(told, answer(number, 0));
    }
    assert_eq!(both::check(&button, 64, &mut rng).used, 2);
}

/// Paths of every length from 0 to 40, and longer: any bytes, the front of a file's path with names after it, as it is and with an
/// extension number at its end, and other names.
#[test]
fn put_is_14_exactly_if_the_path_is_malformed() {
    let mut tally = Tally::default();
    run_seeds(0xC900_0000..0xC900_0000 + 20, |_, rng| {
        let built = deep_image(rng);
        let mut button = Button::from(&built);
        let table = table_bytes(button.page_count);
        let deepest = built.entries.iter().max_by_key(|entry| entry.path.len());
        let deepest = deepest.map_or(Vec::new(), |entry| entry.path.clone());
        for length in (0..=40).chain([41, 45, 69, 261, 65_541, 100_001]) {
            let mut near = deepest.clone();
            near.extend(random_name(rng).repeat(length / 4 + 1));
            near.truncate(length);
            let mut ended = near.clone();
            let mut other = random_name(rng).repeat(length / 4 + 1);
            other.truncate(length);
            for last in [&mut ended, &mut other]
                .into_iter()
                .flat_map(|path| path.last_mut())
            {
                *last = rng.below(100) as u8;
            }
            for path in [rng.bytes(length), near, ended, other] {
                let told = both::put(&mut button, table, &path, b"new", rng);
                tally.add(format!("put {}", told.number));
                assert_eq!(told == answer(14, 0), !is_path(&path), "{path:?}");
            }
        }
        for entry in &built.entries {
            let told = both::put(&mut button, table, &entry.path, b"", rng);
            tally.add(format!("put {}", told.number));
        }
    });
    tally.print();
    tally.demand_numbers("put", 20, [0, 14, 15, 16, 17, 22]);
}

/// The names' first bytes in a page of a directory of an image with one-byte page numbers.
fn entries_of(button: &Button, page: usize, control: usize) -> Vec<u8> {
    let body = button.pages().body(page)[control..].to_vec();
    body.chunks(7).map(|entry| entry[0]).collect()
}

/// An image of 20 pages, 0 to 13 in use: the root on pages 0, 9, 5 and 3 with three, three, none and four entries.
fn root_of_four_pages() -> Pages {
    let mut pages = Pages::new(32, 20);
    let files = [("ABC", 0, 9), ("DEF", 9, 5), ("", 5, 3), ("GHIJ", 3, 0)];
    let mut starts = [1, 2, 4, 6, 7, 8, 10, 11, 12, 13].into_iter();
    for (names, page, next) in files {
        let mut body = match page {
            0 => pages.local_control(&(0..14).collect::<Vec<usize>>()),
            _ => Vec::new(),
        };
        for (name, start) in names.chars().zip(starts.by_ref()) {
            body.extend(pages.entry(&name.to_string(), 1, start, 1));
            pages.packet(start, b"a file", 0);
        }
        pages.packet(page, &body, next);
    }
    pages
}

/// A new entry goes to the end of the first page with space in chain order, also in the middle; then the lowest free page joins the end.
#[test]
fn new_entry_goes_to_the_first_page_with_space() {
    let seed = Seed(0xCA00_0000);
    let mut rng = Rng::new(seed.0);
    let mut button = Button::from(&root_of_four_pages());
    let pages = [(0, 7, 9), (9, 0, 5), (5, 0, 3), (3, 0, 0)];
    for (file, names) in [
        ("K", ["ABC", "DEFK", "", "GHIJ"]),
        ("L", ["ABC", "DEFK", "L", "GHIJ"]),
        ("M", ["ABC", "DEFK", "LM", "GHIJ"]),
        ("N", ["ABC", "DEFK", "LMN", "GHIJ"]),
    ] {
        let told = both::put(&mut button, 80, &path(&[], file, 1), b"new", &mut rng);
        assert_eq!(told, answer(0, 0));
        for ((page, control, next), names) in pages.into_iter().zip(names) {
            assert_eq!(entries_of(&button, page, control), names.as_bytes());
            assert_eq!(button.pages().pointer(page), next);
        }
    }
    // Free are 18 and 19 now: one entry more fits on page 5, then only the directory could grow and no page would be left.
    for (file, number) in [("O", 0), ("P", 17)] {
        let told = both::put(&mut button, 80, &path(&[], file, 1), b"", &mut rng);
        assert_eq!(told, answer(number, 0));
    }
    assert_eq!(both::check(&button, 80, &mut rng).used, 19);
    // A deleted file's place is taken by the next, at the end of its page.
    let told = both::delete(&mut button, 80, b"B   \x01", &mut rng);
    assert_eq!(told, answer(0, 0));
    let told = both::put(&mut button, 80, b"P   \x01", &[1; 56], &mut rng);
    assert_eq!(told, answer(0, 0));
    assert_eq!(entries_of(&button, 0, 7), *b"ACP");
    let listing = both::list(&button, 80, 2, &mut rng);
    assert_eq!((listing.start, listing.pages), (2, 2));
}

/// A directory that must grow takes the lowest free page, the file those after it: done with just enough pages, 17 with one too few.
#[test]
fn growing_directory_takes_the_lowest_free_page() {
    let seed = Seed(0xCB00_0000);
    let mut rng = Rng::new(seed.0);
    let mut pages = Pages::new(32, 10);
    let mut root = pages.local_control(&[0, 2, 3, 5, 7, 9]);
    root.extend(pages.entry("S", 0x7F, 3, 0));
    let mut sub = pages.sub_control("ROOT", 0);
    for (name, start) in [("A", 5), ("B", 7), ("C", 9)] {
        sub.extend(pages.entry(name, 1, start, 1));
        pages.packet(start, b"a file", 0);
    }
    pages.packet(0, &root, 2).packet(2, b"", 0);
    pages.packet(3, &sub, 0);
    // Free are 1, 4, 6 and 8.
    let below = path(&["S"], "NEW", 1);
    let mut button = Button::from(&pages);
    for (length, number) in [(200, 17), (85, 17), (84, 0)] {
        let told = both::put(&mut button, 40, &below, &vec![5; length], &mut rng);
        assert_eq!(told, answer(number, 0), "{length} bytes");
    }
    assert_eq!(button.pages().pointer(3), 1);
    assert_eq!(button.pages().body(1), pages.entry("NEW", 1, 4, 3));
    assert_eq!(button.pages().pointer(1), 0);
    let chain = [4, 6, 8].map(|page| button.pages().pointer(page));
    assert_eq!(chain, [6, 8, 0]);
    assert_eq!(both::check(&button, 40, &mut rng).used, 10);
    // No page is left, and now the file's own are enough for another of its length.
    for (length, number) in [(85, 17), (84, 0), (0, 0)] {
        let told = both::put(&mut button, 40, &below, &vec![6; length], &mut rng);
        assert_eq!(told, answer(number, 0), "{length} bytes");
    }
    // The page that joined has space for an entry: two pages are free for the file.
    for (length, number) in [(57, 17), (56, 0)] {
        let other = path(&["S"], "NEXT", 1);
        let told = both::put(&mut button, 40, &other, &vec![7; length], &mut rng);
        assert_eq!(told, answer(number, 0), "{length} bytes");
    }
}

/// A bitmap file keeps its packets' lengths, also empty ones, and only changes bits.
#[test]
fn put_keeps_the_lengths_of_the_bitmap_files_packets() {
    let seed = Seed(0xCC00_0000);
    let mut rng = Rng::new(seed.0);
    let layout = [(9, 0, 5), (5, 1, 7), (7, 2, 6), (6, 0, 8), (8, 2, 0)];
    let bits = [0xE1, 0x03, 0, 0, 0];
    let mut pages = Pages::new(32, 40);
    let root = pages.file_control(9, 5);
    pages.packet(0, &root, 0);
    let mut done = 0;
    for (page, length, next) in layout {
        pages.packet(page, &bits[done..done + length], next);
        done += length;
    }
    let mut button = Button::from(&pages);
    for (length, expected) in [
        (28 * 34, [0xFF; 5]),
        (28 * 34 + 1, [0xFF; 5]),
        (1, [0xE3, 0x03, 0, 0, 0]),
        (28 * 5, [0xFF, 0x07, 0, 0, 0]),
        (28 * 13, [0xFF, 0xFF, 0x07, 0, 0]),
        (0, [0xE3, 0x03, 0, 0, 0]),
    ] {
        let bytes = vec![3; length];
        let told = both::put(&mut button, 160, b"F   \x01", &bytes, &mut rng);
        let number = if length > 28 * 34 { 17 } else { 0 };
        assert_eq!(told, answer(number, 0));
        let after = button.pages();
        let stored: Vec<u8> = layout
            .iter()
            .flat_map(|(page, ..)| after.body(*page))
            .collect();
        assert_eq!(stored, expected);
        for (page, length, next) in layout {
            let packet = (after.body(page).len(), after.pointer(page));
            assert_eq!(packet, (length, next));
        }
    }
}

/// An image with a directory X whose extension byte is this one, and a file X.5 with this one.
fn two_of_one_name(directory: u8, file: u8) -> Button {
    let mut pages = Pages::new(32, 12);
    let mut root = pages.local_control(&[0, 1, 2]);
    root.extend(pages.entry("X", directory, 1, 0));
    root.extend(pages.entry("X", file, 2, 1));
    let sub = pages.sub_control("ROOT", 0);
    pages.packet(0, &root, 0).packet(1, &sub, 0);
    pages.packet(2, b"read-only", 0);
    Button::from(&pages)
}

/// A file and a directory of one name are two entries; a replaced file's top bit stays clear, a read-only file is not replaced.
#[test]
fn put_takes_a_file_and_a_directory_of_one_name_for_two() {
    let seed = Seed(0xCD00_0000);
    let mut rng = Rng::new(seed.0);
    let mut button = two_of_one_name(0x7F, 0x85);
    for (path, number) in [
        (path(&["X", "X"], "X", 5), 15),
        (path(&[], "X", 5), 16),
        (path(&[], "X", 127), 14),
        (path(&[], "X", 0x85), 14),
        (path(&[], "X", 6), 0),
        (path(&["X"], "X", 5), 0),
        (path(&["X"], "X", 5), 0),
        (path(&["X", "X"], "X", 5), 15),
    ] {
        let told = both::put(&mut button, 48, &path, b"a new file", &mut rng);
        assert_eq!(told, answer(number, 0), "{path:?}");
    }
    let totals = both::check(&button, 48, &mut rng);
    assert_eq!((totals.used, totals.files, totals.directories), (5, 3, 1));
    let attributes = [0, 1, 2, 3].map(|place| both::list(&button, 48, place, &mut rng).attribute);
    assert_eq!(attributes, [0, 0, 1, 0]);
    let mut button = two_of_one_name(0xFF, 0x05);
    for (path, number) in [
        (path(&["X", "X"], "X", 5), 15),
        (path(&[], "X", 5), 0),
        (path(&["X"], "X", 5), 22),
    ] {
        let told = both::put(&mut button, 48, &path, b"a new file", &mut rng);
        assert_eq!(told, answer(number, 0), "{path:?}");
    }
    let attributes = [0, 1].map(|place| both::list(&button, 48, place, &mut rng).attribute);
    assert_eq!(attributes, [1, 0]);
}

/// Arguments that fit another image: put judges them alone.
#[test]
fn put_judges_the_arguments_first() {
    run_seeds(0xCE00_0000..0xCE00_0000 + 300, |_, rng| {
        let (page_length, page_count) = random_sizes(rng, 80);
        let mut button = Button::zeros(page_length, page_count);
        misfit(&mut button, rng);
        let table = table_bytes(button.page_count);
        for path in [&b"bad"[..], b"GOOD\x01"] {
            let told = both::put(&mut button, table, path, b"bytes", rng);
            assert_eq!(told, answer(1, 0));
        }
    });
}
