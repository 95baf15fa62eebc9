//! Formats and deletes. Where an image is known by construction, so are the answer and the image afterwards.
//!
//! Programs: the library and the second program. Each call is made by both; every answer and every lent byte is compared.
//! The archive is made by `tools/build`.

use common::generators::{
    any_button, chain_features, counted_owner_bytes, damaged_case, deep_image, directories_of,
    fault_case, faulty_case, files, flip, is_below_hidden, is_enough, labelled_local,
    largest_image, misfit, random_path, random_sizes, sound_case, worn_plan, Made, OWNER_TABLES,
};
use common::plans::{overlaid, plan_without};
use common::trials::{format_known, Trial};
use common::{answer, both, run_seeds, table_bytes, Button, Seed, Tally};
use referee::builder::pages::{path, Pages};
use referee::builder::plan::{Built, BuiltEntry, ChainOf, ImagePlan};
use referee::builder::random::random_name;
use referee::rng::Rng;

/// The labels of paths with the answers that a delete must have given to them.
const PATHS: [&str; 24] = [
    "path of a file: 0",
    "path of a read-only file: 16",
    "path below a hidden directory: 22",
    "path of a read-only file below a hidden directory: 22",
    "path of a file with any extension number: 15",
    "path of a file with the top bit: 14",
    "path of a file with an extension above 99: 14",
    "path with a file's name in the place of a directory: 15",
    "path cut short: 14",
    "path cut short: 15",
    "path with a byte more: 14",
    "path with a bit flipped: 14",
    "path with a bit flipped: 15",
    "path with a name more: 14",
    "path with a name more: 15",
    "path of a directory: 14",
    "path of a directory with its extension: 14",
    "path with a directory's name in the place of a file: 15",
    "path of any file in a directory: 15",
    "path of any bytes: 14",
    "path of any names: 14",
    "path of any names: 15",
    "path of a file below a directory: 0",
    "path of a file below a directory: 16",
];

/// What deletes that were done must have met.
const DONE: [&str; 36] = [
    "one-byte page numbers",
    "two-byte page numbers",
    "local bitmap",
    "bitmap file",
    "empty packet in the bitmap file's chain",
    "partly filled packet in the bitmap file's chain",
    "bitmap file's chain scattered",
    "bits changed in several packets of the bitmap file",
    "empty packet in a file's chain",
    "partly filled packet in a file's chain",
    "file's chain scattered",
    "file of one page",
    "file of several pages",
    "file without bytes",
    "every page was in use",
    "entry in the root's first page",
    "entry in a later page of the root",
    "entry in a subdirectory's first page",
    "entry in a later page of a subdirectory",
    "entry on page 0 with a local bitmap",
    "entry on page 0 with a bitmap file",
    "first of several entries of its page",
    "middle entry of its page",
    "last of several entries of its page",
    "continuation page left empty",
    "empty packet in the root's chain",
    "partly filled packet in the root's chain",
    "root's chain scattered",
    "empty packet in a directory's chain",
    "partly filled packet in a directory's chain",
    "directory's chain scattered",
    "file at level 8",
    "file with stamps",
    "file with several stamps",
    "file without stamps beside stamps of its page",
    "page of stamps and one entry only",
];

/// The label of an entry's place among those of its page, and of a continuation page that has no other.
fn place_in_page(built: &Built, entry: &BuiltEntry) -> &'static str {
    let offsets = built
        .entries
        .iter()
        .filter(|other| other.page == entry.page);
    let offsets: Vec<usize> = offsets.map(|other| other.offset).collect();
    let least = offsets.iter().min() == Some(&entry.offset);
    let greatest = offsets.iter().max() == Some(&entry.offset);
    let continued = built.chains[entry.directory].pages[0] != entry.page;
    match (least, greatest) {
        (true, true) if continued => "continuation page left empty",
        (true, true) => "first page left without entries",
        (true, false) => "first of several entries of its page",
        (false, true) => "last of several entries of its page",
        (false, false) => "middle entry of its page",
    }
}

/// What the delete of an entry has to do with, as labels to be counted.
fn delete_features(built: &Built, entry: &BuiltEntry, after: &Button) -> Vec<&'static str> {
    let before = Button::from(built);
    let pages = before.pages();
    let bitmap = built
        .chains
        .iter()
        .find(|chain| chain.of == ChainOf::Bitmap);
    let directory = &built.chains[entry.directory];
    let file = &built.chains[entry.chain];
    let mut labels = vec![place_in_page(built, entry)];
    labels.push(match pages.geometry.number_length() {
        1 => "one-byte page numbers",
        _ => "two-byte page numbers",
    });
    labels.push(match bitmap {
        Some(_) => "bitmap file",
        None => "local bitmap",
    });
    labels.push(match (directory.of, directory.pages[0] == entry.page) {
        (ChainOf::Root, true) => "entry in the root's first page",
        (ChainOf::Root, false) => "entry in a later page of the root",
        (_, true) => "entry in a subdirectory's first page",
        (_, false) => "entry in a later page of a subdirectory",
    });
    labels.push(match file.pages.len() {
        1 => "file of one page",
        _ => "file of several pages",
    });
    let mut in_page = built
        .entries
        .iter()
        .filter(|other| other.page == entry.page);
    let is_alone = in_page.clone().count() == 1;
    let stamps_in_page = in_page.any(|other| other.stamps > 0);
    let changed = |page: &&usize| before.page(**page) != after.page(**page);
    let changes = bitmap.map_or(0, |chain| chain.pages.iter().filter(changed).count());
    let met = [
        (
            entry.page == 0 && bitmap.is_none(),
            "entry on page 0 with a local bitmap",
        ),
        (
            entry.page == 0 && bitmap.is_some(),
            "entry on page 0 with a bitmap file",
        ),
        (
            changes > 1,
            "bits changed in several packets of the bitmap file",
        ),
        (entry.stamps > 0, "file with stamps"),
        (entry.stamps > 1, "file with several stamps"),
        (
            entry.stamps == 0 && stamps_in_page,
            "file without stamps beside stamps of its page",
        ),
        (
            entry.stamps > 0 && is_alone,
            "page of stamps and one entry only",
        ),
        (entry.bytes.is_empty(), "file without bytes"),
        (entry.listing.level == 8, "file at level 8"),
        (
            built.totals.used == built.page_count,
            "every page was in use",
        ),
    ];
    labels.extend(met.iter().filter(|(is, _)| *is).map(|(_, label)| *label));
    for chain in [Some(directory), Some(file), bitmap].into_iter().flatten() {
        labels.extend(chain_features(&pages, chain));
    }
    labels
}

/// A plan, its image, and the counts of what was met.
struct Worn<'a> {
    plan: &'a ImagePlan,
    built: &'a Built,
    tally: &'a mut Tally,
}

impl Worn<'_> {
    /// Deletes the file of a path from a copy of the image; the answer and the image afterwards are the plan's.
    fn delete(&mut self, label: &str, path: &[u8], rng: &mut Rng) {
        let mut button = Button::from(self.built);
        let owner_bytes = counted_owner_bytes(button.page_count, rng, self.tally);
        let told = both::delete(&mut button, owner_bytes, path, rng);
        self.tally.add(format!("delete {}", told.number));
        if !is_enough(button.page_count, owner_bytes) {
            assert_eq!(told, answer(1, 0));
            return;
        }
        self.tally.add(format!("{label}: {}", told.number));
        let mut found = files(self.built).into_iter();
        let Some(entry) = found.find(|entry| entry.path == path) else {
            let missing = told == answer(14, 0) || told == answer(15, 0);
            assert!(missing, "{told:?} for a path of no file");
            return;
        };
        if path.len() > 5 {
            let number = told.number;
            self.tally
                .add(format!("path of a file below a directory: {number}"));
        }
        if is_below_hidden(self.built, directories_of(entry)) {
            assert_eq!(told, answer(22, 0), "hidden");
            return;
        }
        if entry.listing.attribute == 1 {
            assert_eq!(told, answer(16, 0), "read-only");
            return;
        }
        assert_eq!(told, answer(0, 0), "known by construction");
        self.demand_without(path, &button, rng);
        for label in delete_features(self.built, entry, &button) {
            self.tally.add(label);
        }
    }

    /// Demands the image of the plan without the file, laid over the image as it was, and a check that tells of it.
    fn demand_without(&self, path: &[u8], button: &Button, rng: &mut Rng) {
        let without = plan_without(self.plan, path).expect("the plan has the file");
        let without = without.build();
        let expected = overlaid(&Button::from(self.built), &without);
        assert!(button.image == expected, "known by construction");
        let table = table_bytes(button.page_count);
        assert_eq!(both::check(button, table, rng), without.totals);
    }
}

/// Deletes of files that are there, and of paths near them, from images with scattered chains, odd packets and nested directories.
#[test]
fn deletes_from_sound_images_leave_the_planned_image() {
    let mut tally = Tally::default();
    run_seeds(0xA000_0000..0xA000_0000 + 4_000, |_, rng| {
        let plan = worn_plan(rng);
        let built = plan.build();
        let mut worn = Worn {
            plan: &plan,
            built: &built,
            tally: &mut tally,
        };
        let writable: Vec<&BuiltEntry> = files(&built)
            .into_iter()
            .filter(|entry| entry.listing.attribute == 0)
            .collect();
        if let Some(entry) = rng.pick(&writable) {
            worn.delete("path of a file to delete", &entry.path, rng);
        }
        for _ in 0..2 {
            let wanted = random_path(&built, rng);
            worn.delete(wanted.label, &wanted.path, rng);
        }
    });
    tally.print();
    tally.demand(20, &DONE);
    tally.demand(20, &OWNER_TABLES);
    tally.demand(10, &PATHS);
    tally.demand_numbers("delete", 100, [0, 1, 14, 15, 16, 22]);
}

/// Every file of an image is deleted, one after the other; those that stay are read each time.
#[test]
fn deletes_one_after_the_other_leave_the_planned_images() {
    let mut deletes = 0;
    run_seeds(0xA100_0000..0xA100_0000 + 150, |_, rng| {
        let mut plan = worn_plan(rng);
        let built = plan.build();
        let mut button = Button::from(&built);
        let table = table_bytes(button.page_count);
        let mut left: Vec<&BuiltEntry> = files(&built);
        rng.shuffle(&mut left);
        left.truncate(60);
        while let Some(entry) = left.pop() {
            let before = button.clone();
            let told = both::delete(&mut button, table + 3, &entry.path, rng);
            deletes += 1;
            if is_below_hidden(&built, directories_of(entry)) {
                assert_eq!(told, answer(22, 0));
                continue;
            }
            if entry.listing.attribute == 1 {
                assert_eq!(told, answer(16, 0));
                continue;
            }
            assert_eq!(told, answer(0, 0));
            plan = plan_without(&plan, &entry.path).expect("the plan has the file");
            let now = plan.build();
            assert!(
                button.image == overlaid(&before, &now),
                "known by construction"
            );
            assert_eq!(both::check(&button, table, rng), now.totals);
            let told = both::delete(&mut button, table, &entry.path, rng);
            assert_eq!(told, answer(15, 0), "deleted before");
            if let Some(other) = rng.pick(&left) {
                let length = other.bytes.len();
                let (_, bytes) = both::read_bytes(&button, table, &other.path, length, rng);
                assert_eq!(bytes, other.bytes);
            }
        }
    });
    println!("deletes: {deletes}");
    assert!(deletes > 1_000, "{deletes} deletes");
}

/// Each number from 2 to 13, with the page known; pairs of them; damage of any kind; arguments that do not fit.
#[test]
fn deletes_from_faulty_images_tell_the_fault() {
    let mut tally = Tally::default();
    run_seeds(0xA200_0000..0xA200_0000 + 3_000, |seed, rng| {
        let case = faulty_case(seed, rng);
        let mut trial = Trial {
            case: &case,
            rng,
            tally: &mut tally,
        };
        trial.delete();
        trial.delete();
    });
    tally.print();
    tally.demand_numbers("delete", 40, 1..=13);
}

/// An image to format and a label: accepted, with faults, any bytes, or one that does not fit.
fn image_to_format(kind: u64, rng: &mut Rng) -> (&'static str, Button) {
    match kind % 8 {
        0 | 1 => ("accepted", sound_case(rng).button),
        2 => ("accepted", Button::from(&worn_plan(rng).build())),
        3 => {
            let number = rng.between(2, 13) as u32;
            ("refused", fault_case(number, rng).button)
        }
        4 => {
            let mut button = sound_case(rng).button;
            flip(&mut button.image, rng);
            ("flipped", button)
        }
        5 => ("misfit", damaged_case(Made::Misfit, rng).button),
        _ => {
            let (page_length, page_count) = random_sizes(rng, 400);
            let mut button = Button::zeros(page_length, page_count);
            button.image = rng.bytes(button.image.len());
            ("any bytes", button)
        }
    }
}

/// Format over images of every kind; after 4 the table tells of the old image as it stands.
#[test]
fn formats_of_any_image_leave_the_planned_image_or_are_refused() {
    let mut tally = Tally::default();
    run_seeds(0xA300_0000..0xA300_0000 + 3_000, |seed, rng| {
        let (label, mut button) = image_to_format(seed, rng);
        let (local_label, local) = labelled_local(rng);
        let bitmap = if local == 0 { "bitmap file" } else { "local" };
        tally.add(local_label);
        let owner_bytes = counted_owner_bytes(button.page_count, rng, &mut tally);
        let told = format_known(&mut button, owner_bytes, local, rng);
        tally.add(format!("format {}", told.number));
        tally.add(format!("{label}, {bitmap}: {}", told.number));
        if told.number == 0 && rng.chance(20) {
            // A second format writes the same bytes.
            let once = button.clone();
            assert_eq!(format_known(&mut button, owner_bytes, local, rng), told);
            assert_eq!(button, once);
        }
    });
    tally.print();
    let met = [
        "accepted, bitmap file: 0",
        "accepted, local: 0",
        "accepted, local: 4",
        "refused, bitmap file: 0",
        "refused, local: 0",
        "refused, local: 4",
        "any bytes, bitmap file: 0",
        "any bytes, local: 0",
        "any bytes, local: 4",
        "misfit, bitmap file: 1",
        "misfit, local: 1",
        "local bitmap asked for by another number",
        "local bitmap asked for by any number",
    ];
    tally.demand(20, &met);
    tally.demand(10, &OWNER_TABLES);
    tally.demand_numbers("format", 100, [0, 1, 4]);
}

/// Every page count from 2 to 300 with pages of 32 bytes, and some page lengths more, over random bytes.
#[test]
fn formats_of_every_page_count_leave_the_planned_image() {
    let mut formats = 0;
    let lengths = [32, 33, 40, 63, 128, 255, 256];
    run_seeds(0xA400_0000 + 2..0xA400_0000 + 301, |seed, rng| {
        let page_count = (seed - 0xA400_0000) as u32;
        for page_length in lengths {
            if page_length > 32 && page_count % 9 != 4 && page_count > 34 {
                continue;
            }
            for local in [0, 1] {
                let mut button = Button::zeros(page_length, page_count);
                button.image = rng.bytes(button.image.len());
                let table = table_bytes(page_count) + rng.below(6);
                format_known(&mut button, table, local, rng);
                formats += 1;
            }
        }
    });
    println!("formats: {formats}");
    assert!(formats >= 2 * 299, "{formats} formats");
}

/// The lengths of the bitmap file's packets around those page counts that fill them.
#[test]
fn format_fills_all_packets_of_the_bitmap_file_but_the_last() {
    let seed = Seed(0xA500_0000);
    let mut rng = Rng::new(seed.0);
    for (page_length, page_count, lengths) in [
        (32, 2, vec![1]),
        (32, 8, vec![1]),
        (32, 9, vec![2]),
        (32, 224, vec![28]),
        (32, 225, vec![28, 1]),
        (32, 256, vec![28, 4]),
        (32, 257, vec![27, 6]),
        (32, 432, vec![27, 27]),
        (32, 433, vec![27, 27, 1]),
        (256, 2_008, vec![251]),
        (256, 2_009, vec![251, 1]),
    ] {
        let mut button = Button::zeros(page_length, page_count);
        button.image = rng.bytes(button.image.len());
        let table = table_bytes(page_count);
        assert_eq!(format_known(&mut button, table, 0, &mut rng), answer(0, 0));
        let pages = button.pages();
        for (place, &length) in lengths.iter().enumerate() {
            let last = place + 1 == lengths.len();
            assert_eq!(pages.body(1 + place).len(), length);
            let next = if last { 0 } else { place + 2 };
            assert_eq!(pages.pointer(1 + place), next);
        }
        let totals = both::check(&button, table, &mut rng);
        assert_eq!(totals.used as usize, 1 + lengths.len());
    }
}

/// Format of 65,535 pages and of nearly so many, over any bytes and over an accepted image.
#[test]
fn formats_of_65535_pages_leave_the_planned_image_or_are_refused() {
    let seed = Seed(0xA600_0000);
    let mut rng = Rng::new(seed.0);
    for (page_length, page_count) in [(32, 65_535), (33, 65_534), (64, 65_528), (256, 65_535)] {
        let table = table_bytes(page_count);
        let mut button = Button::zeros(page_length, page_count);
        button.image = rng.bytes(button.image.len());
        for (local, number) in [(1, 4), (0, 0), (u32::MAX, 4), (0, 0)] {
            let told = format_known(&mut button, table + 1, local, &mut rng);
            assert_eq!(told, answer(number, 0));
        }
        let told = format_known(&mut button, table - 1, 0, &mut rng);
        assert_eq!(told, answer(1, 0));
        button.page_count = 65_536;
        button.image.resize(65_536 * page_length as usize, 0);
        let told = format_known(&mut button, 4 * 65_536, 0, &mut rng);
        assert_eq!(told, answer(1, 0));
    }
}

/// Deletes from images of 65,535 pages: the first, the last and some other files.
#[test]
fn deletes_from_65535_pages_are_done_or_refused_as_known() {
    let shapes = [
        (32, 150, 40, 40),
        (33, 300, 500, 10),
        (64, 60, 2_000, 0),
        (256, 100, 800, 5),
    ];
    for (place, (page_length, entries, file_pages, directory_percent)) in
        shapes.into_iter().enumerate()
    {
        let seed = 0xA700_0000 + place as u64;
        let _seed = Seed(seed);
        let mut rng = Rng::new(seed);
        let built = largest_image(page_length, entries, file_pages, directory_percent, seed);
        let mut button = Button::from(&built);
        let files = files(&built);
        let last = files.len() - 1;
        let any = rng.between(1, last - 1);
        for entry in [files[last], files[0], files[any]] {
            let told = both::delete(&mut button, 262_141, &entry.path, &mut rng);
            let expected = if entry.listing.attribute == 1 { 16 } else { 0 };
            assert_eq!(told, answer(expected, 0));
        }
        let totals = both::check(&button, 262_140, &mut rng);
        assert_eq!(totals.number, 0);
        flip(&mut button.image, &mut rng);
        both::delete(&mut button, 262_140, &files[any].path, &mut rng);
    }
}

/// Any numbers, image, path and table: both calls answer as the second program does.
#[test]
fn deletes_and_formats_with_any_arguments_are_the_second_programs() {
    let mut tally = Tally::default();
    run_seeds(0xA800_0000..0xA800_0000 + 4_000, |_, rng| {
        let (mut button, table) = any_button(rng);
        let path_bytes = rng.below(60);
        let path = rng.bytes(path_bytes);
        let told = both::delete(&mut button, table, &path, rng);
        tally.add(format!("delete {}", told.number));
        let local = labelled_local(rng).1;
        let told = both::format(&mut button, table, local, rng);
        tally.add(format!("format {}", told.number));
        let formatted = told.number == 0;
        let told = both::delete(&mut button, table, &path, rng);
        tally.add(format!("delete after format {}", told.number));
        assert!(!formatted || told == answer(14, 0) || told == answer(15, 0));
    });
    tally.print();
    tally.demand_numbers("format", 100, [0, 1, 4]);
    tally.demand_numbers("delete", 100, [1, 2]);
    tally.demand_numbers("delete after format", 100, [1, 2, 14]);
}

/// Slices of no bytes.
#[test]
fn delete_and_format_of_empty_slices_are_1_or_14() {
    let seed = Seed(0xA810_0000);
    let mut rng = Rng::new(seed.0);
    for (page_length, page_count) in [(0, 0), (32, 0), (32, 2), (256, 65_535)] {
        let mut button = Button {
            page_length,
            page_count,
            image: Vec::new(),
        };
        for table in 0..6 {
            for local in [0, 1] {
                let told = both::format(&mut button, table, local, &mut rng);
                assert_eq!(told, answer(1, 0));
            }
            let told = both::delete(&mut button, table, b"", &mut rng);
            assert_eq!(told, answer(1, 0));
        }
    }
    let mut button = Button::formatted(32, 16, true);
    let told = both::delete(&mut button, 64, b"", &mut rng);
    assert_eq!(told, answer(14, 0));
    let told = both::delete(&mut button, 0, b"", &mut rng);
    assert_eq!(told, answer(1, 0));
}

/// Paths of every length from 0 to 40, and longer: any bytes, and the front of a file's path with names after it, as it is and with an
/// extension number at its end.
#[test]
fn deletes_of_paths_of_another_length_are_14() {
    let mut tally = Tally::default();
    run_seeds(0xA900_0000..0xA900_0000 + 20, |_, rng| {
        let built = deep_image(rng);
        let mut button = Button::from(&built);
        let table = table_bytes(button.page_count);
        let deepest = built.entries.iter().max_by_key(|entry| entry.path.len());
        let deepest = deepest.map_or(Vec::new(), |entry| entry.path.clone());
        for length in (0..=40).chain([41, 45, 69, 261, 65_541, 100_001]) {
            let mut near = deepest.clone();
            near.extend(random_name(rng).repeat(length / 4 + 1));
            near.truncate(length);
            let mut ended = near.clone();
            if let Some(last) = ended.last_mut() {
                *last = rng.below(100) as u8;
            }
            for path in [rng.bytes(length), near, ended] {
                let told = both::delete(&mut button, table, &path, rng);
                tally.add(format!("delete {}", told.number));
                let well_formed = length % 4 == 1 && (5..=37).contains(&length);
                if !well_formed {
                    assert_eq!(told, answer(14, 0), "{path:?}");
                }
            }
        }
        for entry in &built.entries {
            let told = both::delete(&mut button, table, &entry.path, rng);
            tally.add(format!("delete {}", told.number));
        }
    });
    tally.print();
    tally.demand_numbers("delete", 20, [0, 14, 15, 16, 22]);
}

/// An image of 16 pages, 0 to 8 in use: files A and B and a directory S on page 0, C and D on the root's second page 4, E in S.
fn two_pages_of_entries() -> Pages {
    let mut pages = Pages::new(32, 16);
    let mut root = pages.local_control(&(0..9).collect::<Vec<usize>>());
    root.extend(pages.entry("A", 1, 1, 1));
    root.extend(pages.entry("B", 1, 2, 1));
    root.extend(pages.entry("S", 0x7F, 6, 0));
    let mut more = pages.entry("C", 1, 3, 1);
    more.extend(pages.entry("D", 1, 5, 1));
    let mut sub = pages.sub_control("ROOT", 0);
    sub.extend(pages.entry("E", 1, 8, 1));
    pages.packet(0, &root, 4).packet(4, &more, 0);
    pages.packet(6, &sub, 7).packet(7, b"", 0);
    for file in [1, 2, 3, 5, 8] {
        pages.packet(file, b"a file", 0);
    }
    pages
}

/// Entries of the same page move up, those of later pages do not, and a page left without entries stays in its chain.
#[test]
fn entries_move_up_in_their_page_only() {
    let seed = Seed(0xAB00_0000);
    let mut rng = Rng::new(seed.0);
    let first = two_pages_of_entries();
    let mut button = Button::from(&first);
    let entries_of = |button: &Button, page: usize| -> Vec<u8> {
        let control = if page == 4 { 0 } else { 7 };
        let body = button.pages().body(page)[control..].to_vec();
        body.chunks(7).map(|entry| entry[0]).collect()
    };
    for (path, root, second, sub) in [
        (path(&[], "A", 1), "BS", "CD", "E"),
        (path(&[], "C", 1), "BS", "D", "E"),
        (path(&[], "D", 1), "BS", "", "E"),
        (path(&["S"], "E", 1), "BS", "", ""),
        (path(&[], "B", 1), "S", "", ""),
    ] {
        assert_eq!(both::delete(&mut button, 64, &path, &mut rng), answer(0, 0));
        for (page, names, next) in [(0, root, 4), (4, second, 0), (6, sub, 7)] {
            assert_eq!(entries_of(&button, page), names.as_bytes());
            assert_eq!(button.pages().pointer(page), next);
        }
    }
    let totals = both::check(&button, 64, &mut rng);
    assert_eq!((totals.used, totals.files, totals.directories), (4, 0, 1));
    // The freed pages have the bytes that they had.
    for page in [1, 2, 3, 5, 8] {
        assert_eq!(button.page(page), first.page(page));
    }
}

/// A bitmap file keeps its packets' lengths, also empty ones, and only changes bits.
#[test]
fn delete_keeps_the_lengths_of_the_bitmap_files_packets() {
    let seed = Seed(0xAC00_0000);
    let mut rng = Rng::new(seed.0);
    let layout = [(9, 0, 5), (5, 1, 7), (7, 2, 6), (6, 0, 8), (8, 2, 0)];
    let empty = [0xE1, 0x03, 0, 0, 0];
    let full = [0xFF; 5];
    let mut pages = Pages::new(32, 40);
    let root = pages.file_control(9, 5);
    pages.packet(0, &root, 0);
    let mut done = 0;
    for (page, length, next) in layout {
        pages.packet(page, &empty[done..done + length], next);
        done += length;
    }
    let mut button = Button::from(&pages);
    let large = vec![3; 28 * 34];
    assert_eq!(button.put(b"F   \x01", &large).0, answer(0, 0));
    let bits = |button: &Button| -> Vec<u8> {
        let pages = button.pages();
        layout
            .iter()
            .flat_map(|(page, ..)| pages.body(*page))
            .collect()
    };
    assert_eq!(bits(&button), full);
    let told = both::delete(&mut button, 160, b"F   \x01", &mut rng);
    assert_eq!(told, answer(0, 0));
    assert_eq!(bits(&button), empty);
    let after = button.pages();
    for (page, length, next) in layout {
        let packet = (after.body(page).len(), after.pointer(page));
        assert_eq!(packet, (length, next));
    }
}

/// A file and a directory of one name are two entries: the file's is removed, and its name in the other place is 15.
#[test]
fn delete_takes_a_file_and_a_directory_of_one_name_for_two() {
    let seed = Seed(0xAD00_0000);
    let mut rng = Rng::new(seed.0);
    let mut pages = Pages::new(32, 8);
    let mut root = pages.local_control(&[0, 1, 2, 3]);
    root.extend(pages.entry("X", 0x7F, 1, 0));
    root.extend(pages.entry("X", 5, 3, 1));
    let mut sub = pages.sub_control("ROOT", 0);
    sub.extend(pages.entry("X", 5, 2, 1));
    pages.packet(0, &root, 0).packet(1, &sub, 0);
    pages.packet(2, b"below", 0).packet(3, b"above", 0);
    let mut button = Button::from(&pages);
    for (path, number) in [
        (path(&["X", "X"], "X", 5), 15),
        (path(&[], "X", 5), 0),
        (path(&[], "X", 5), 15),
        (path(&[], "X", 127), 14),
        (path(&["X"], "X", 5), 0),
        (path(&["X"], "X", 5), 15),
    ] {
        let told = both::delete(&mut button, 32, &path, &mut rng);
        assert_eq!(told, answer(number, 0));
    }
    let totals = both::check(&button, 32, &mut rng);
    assert_eq!((totals.used, totals.files, totals.directories), (2, 0, 1));
}

/// Arguments that fit another image: format and delete judge them alone.
#[test]
fn delete_and_format_judge_the_arguments_first() {
    run_seeds(0xAE00_0000..0xAE00_0000 + 300, |seed, rng| {
        let (page_length, page_count) = random_sizes(rng, 80);
        let mut button = Button::zeros(page_length, page_count.max(33));
        misfit(&mut button, rng);
        let table = table_bytes(button.page_count);
        let local = (seed % 2) as u32;
        let told = both::format(&mut button, table, local, rng);
        assert_eq!(told, answer(1, 0));
        let told = both::delete(&mut button, table, b"bad", rng);
        assert_eq!(told, answer(1, 0));
    });
}
