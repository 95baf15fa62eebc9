//! Checks, listings and reads. Where an image is known by construction, so is the answer.
//!
//! Programs: the library and the second program. Each call is made by both; every answer and every lent byte is compared.
//! The archive is made by `tools/build`.

use common::generators::{
    damaged_case, deep_image, fault_case, features, flip, largest_image, sound_case,
    two_faults_case, Case, Made, OWNER_TABLES, STAMPS,
};
use common::trials::{absent, Trial};
use common::{answer, both, table_bytes, Button, Seed, Tally};
use referee::builder::pages::{name, Pages};
use referee::builder::random::random_name;
use referee::rng::Rng;

/// Runs so many cases, each from a seed of its own.
fn run_cases(
    seeds: std::ops::Range<u64>,
    tally: &mut Tally,
    mut make: impl FnMut(u64, &mut Rng) -> Case,
) {
    println!("seeds {seeds:?}");
    for seed in seeds {
        let _seed = Seed(seed);
        let mut rng = Rng::new(seed);
        let case = make(seed, &mut rng);
        if case.made == Made::Sound {
            for label in features(&case.built) {
                tally.add(label);
            }
        }
        let mut trial = Trial {
            case: &case,
            rng: &mut rng,
            tally,
        };
        trial.reads();
    }
}

/// The labels of outputs.
const OUTPUTS: [&str; 7] = [
    "output just long enough",
    "output one byte longer",
    "output longer",
    "output much longer",
    "output one byte too short",
    "output too short",
    "no output",
];

/// The labels of positions.
const POSITIONS: [&str; 7] = [
    "position of an entry",
    "position of the last entry",
    "position at the end",
    "position just past the end",
    "position 65,536 more",
    "position 2^32 - 1",
    "any position",
];

/// What the sound images must have had.
const FEATURES: [&str; 18] = [
    "one-byte page numbers",
    "two-byte page numbers",
    "local bitmap",
    "bitmap file",
    "entry at level 8",
    "thousands of pages",
    "empty packet in the root's chain",
    "empty packet in the bitmap file's chain",
    "empty packet in a file's chain",
    "empty packet in a directory's chain",
    "partly filled packet in the root's chain",
    "partly filled packet in the bitmap file's chain",
    "partly filled packet in a file's chain",
    "partly filled packet in a directory's chain",
    "root's chain scattered",
    "bitmap file's chain scattered",
    "file's chain scattered",
    "directory's chain scattered",
];

/// The labels of paths with the answers that they must have met.
const PATHS: [&str; 28] = [
    "path of a file: 0",
    "path of a file: 18",
    "path of a read-only file: 0",
    "path of a read-only file: 18",
    "path below a hidden directory: 0",
    "path below a hidden directory: 18",
    "path of a read-only file below a hidden directory: 0",
    "path of a read-only file below a hidden directory: 18",
    "path of each entry: 0",
    "path of each entry: 14",
    "path of a file with any extension number: 15",
    "path of a file with the top bit: 14",
    "path of a file with an extension above 99: 14",
    "path with a file's name in the place of a directory: 15",
    "path cut short: 14",
    "path cut short: 15",
    "path with a byte more: 14",
    "path with a bit flipped: 14",
    "path with a bit flipped: 15",
    "path with a name more: 15",
    "path with a name more: 14",
    "path of a directory: 14",
    "path of a directory with its extension: 14",
    "path with a directory's name in the place of a file: 15",
    "path of any file in a directory: 15",
    "path of any bytes: 14",
    "path of any names: 14",
    "path of any names: 15",
];

#[test]
fn calls_on_sound_images_are_as_planned() {
    let mut tally = Tally::default();
    run_cases(0x5000_0000..0x5000_0000 + 7_000, &mut tally, |_, rng| {
        sound_case(rng)
    });
    tally.print();
    tally.demand(20, &FEATURES);
    tally.demand(20, &STAMPS);
    tally.demand(20, &OWNER_TABLES);
    tally.demand(20, &OUTPUTS);
    tally.demand(20, &POSITIONS);
    tally.demand(20, &PATHS);
    tally.demand_numbers("check", 100, [0, 1]);
    tally.demand_numbers("list", 100, [0, 1, 15]);
    tally.demand_numbers("read", 100, [0, 1, 14, 15, 18]);
}

/// Each number from 2 to 13, with the page known.
#[test]
fn one_fault_is_told_by_each_call() {
    let mut tally = Tally::default();
    run_cases(0x5100_0000..0x5100_0000 + 5_400, &mut tally, |seed, rng| {
        fault_case(2 + (seed % 12) as u32, rng)
    });
    tally.print();
    tally.demand(20, &OWNER_TABLES);
    for call in ["check", "list", "read"] {
        tally.demand_numbers(call, 100, 1..=13);
    }
}

/// Each pair of numbers from 2 to 13, in either order.
#[test]
fn calls_on_images_with_two_faults_are_the_second_programs() {
    let mut tally = Tally::default();
    run_cases(0x5200_0000..0x5200_0000 + 4_320, &mut tally, |seed, rng| {
        let pair = (seed % 144) as u32;
        two_faults_case([2 + pair / 12, 2 + pair % 12], rng)
    });
    tally.print();
    for call in ["check", "list", "read"] {
        tally.demand_numbers(call, 20, 1..=13);
    }
}

/// Changed bytes with checks computed again or not, random packets, and arguments that do not fit.
#[test]
fn calls_on_damaged_images_are_the_second_programs() {
    let mut tally = Tally::default();
    run_cases(0x5300_0000..0x5300_0000 + 6_000, &mut tally, |seed, rng| {
        let made = match seed % 10 {
            0..=3 => Made::Sealed,
            4..=6 => Made::Flipped,
            7 | 8 => Made::Packets,
            _ => Made::Misfit,
        };
        damaged_case(made, rng)
    });
    tally.print();
    let met = [0, 1, 2, 3, 4, 5, 6, 7, 8, 9, 10, 11, 13];
    tally.demand_numbers("check", 5, met);
    tally.demand_numbers("list", 5, met.into_iter().chain([15]));
    tally.demand_numbers("read", 5, met.into_iter().chain([14, 15, 18]));
}

/// The calls with a few images of 65,535 pages, sound and with a flipped bit.
#[test]
fn calls_on_65535_pages_are_as_planned_or_the_second_programs() {
    let mut tally = Tally::default();
    let shapes = [
        (32, 150, 40, 40),
        (33, 300, 500, 10),
        (64, 60, 2_000, 0),
        (256, 100, 800, 5),
    ];
    for (place, (page_length, entries, file_pages, directory_percent)) in
        shapes.into_iter().enumerate()
    {
        let seed = 0x5400_0000 + place as u64;
        let _seed = Seed(seed);
        let mut rng = Rng::new(seed);
        let built = largest_image(page_length, entries, file_pages, directory_percent, seed);
        let button = Button::from(&built);
        let mut case = Case {
            made: Made::Sound,
            button,
            built,
        };
        for made in [Made::Sound, Made::Flipped] {
            case.made = made;
            if made == Made::Flipped {
                flip(&mut case.button.image, &mut rng);
            }
            let mut trial = Trial {
                case: &case,
                rng: &mut rng,
                tally: &mut tally,
            };
            trial.reads();
            trial.reads();
        }
    }
    tally.print();
    tally.demand_numbers("check", 1, [0]);
    tally.demand_numbers("list", 1, [0]);
    tally.demand_numbers("read", 1, [0]);
}

/// The number of a read; it must be 14 if no path has so many bytes.
fn read_path(button: &Button, path: &[u8], rng: &mut Rng) -> u32 {
    let owner_bytes = table_bytes(button.page_count);
    let told = both::read(button, owner_bytes, path, 300, rng);
    let well_formed = path.len() % 4 == 1 && (5..=37).contains(&path.len());
    if !well_formed {
        assert_eq!(answer(told.number, told.page), answer(14, 0), "{path:?}");
    }
    told.number
}

/// A path of so many bytes that are names as far as they reach; the last byte is an extension number.
fn names_of_length(length: usize, rng: &mut Rng) -> Vec<u8> {
    let mut path: Vec<u8> = (0..11).flat_map(|_| random_name(rng)).collect();
    path.truncate(length);
    if let Some(last) = path.last_mut() {
        *last = rng.below(100) as u8;
    }
    path
}

/// Paths of every length from 0 to 40, and longer: any bytes, names, and the front of a file's path with names after it.
#[test]
fn reads_of_paths_of_another_length_are_14() {
    let mut tally = Tally::default();
    for seed in 0x5500_0000..0x5500_0000 + 25 {
        let _seed = Seed(seed);
        let mut rng = Rng::new(seed);
        let built = deep_image(&mut rng);
        let button = Button::from(&built);
        let deepest = built.entries.iter().max_by_key(|entry| entry.path.len());
        let deepest = deepest.map_or(Vec::new(), |entry| entry.path.clone());
        for length in 0..=40 {
            let any = rng.bytes(length);
            read_path(&button, &any, &mut rng);
            let names = names_of_length(length, &mut rng);
            tally.add(format!("read {}", read_path(&button, &names, &mut rng)));
            let mut near = deepest.clone();
            near.extend(names);
            near.truncate(length);
            read_path(&button, &near, &mut rng);
            // The same names with an extension number, if the length is a path's.
            if let Some(last) = near.last_mut() {
                *last = rng.below(100) as u8;
            }
            tally.add(format!("read {}", read_path(&button, &near, &mut rng)));
        }
        for length in [41, 45, 69, 261, 65_541, 100_001] {
            read_path(&button, &b"D".repeat(length), &mut rng);
        }
        for entry in &built.entries {
            tally.add(format!(
                "read {}",
                read_path(&button, &entry.path, &mut rng)
            ));
        }
    }
    tally.print();
    tally.demand_numbers("read", 20, [0, 14, 15, 18]);
}

/// A file over all pages that are free, longer than 16 bits can tell, with an output that is long enough or not.
#[test]
fn long_file_is_read_whole_or_is_18() {
    let mut rng = Rng::new(0x5700_0000);
    for (page_length, page_count) in [(256, 600), (32, 5_000), (256, 65_535)] {
        let mut button = Button::formatted(page_length, page_count, false);
        let free = (page_count - button.check().0.used) as usize;
        let length = free * (page_length as usize - 5);
        let bytes: Vec<u8> = (0..length).map(|place| (place / 7) as u8).collect();
        assert_eq!(button.put(b"ALL \x63", &bytes).0, answer(0, 0));
        let table = table_bytes(page_count);
        let listing = both::list(&button, table, 0, &mut rng);
        let sizes = (listing.pages as usize, listing.length as usize);
        assert_eq!(sizes, (free, length));
        let (told, read) = both::read_bytes(&button, table, b"ALL \x63", length, &mut rng);
        assert_eq!((told.number, told.length as usize), (0, length));
        assert!(read == bytes, "the file's bytes");
        let told = both::read(&button, table, b"ALL \x63", length - 1, &mut rng);
        assert_eq!(answer(told.number, told.page), answer(18, 0));
        let told = both::read(&button, table, b"ALL \x63", length & 0xFFFF, &mut rng);
        assert_eq!(answer(told.number, told.page), answer(18, 0));
    }
}

/// The page of the directory at a level of `nested`, 0 for the root; its file stands on the next page.
fn page_of_level(level: usize) -> usize {
    2 * level
}

/// An image with directories D1 to D8 below each other, each second one hidden, and a file in the root and in each of them.
fn nested() -> Pages {
    let mut pages = Pages::new(64, 20);
    for level in 0..=8 {
        let page = page_of_level(level);
        let mut body = match level {
            0 => pages.local_control(&(0..18).collect::<Vec<usize>>()),
            1 => pages.sub_control("ROOT", 0),
            _ => pages.sub_control(&format!("D{}", level - 1), page_of_level(level - 1)),
        };
        body.extend(pages.entry("FILE", 5, page + 1, 1));
        if level < 8 {
            let hidden = 0x80 * (level % 2) as u8;
            let below = page_of_level(level + 1);
            body.extend(pages.entry(&format!("D{}", level + 1), 0x7F | hidden, below, 0));
        }
        pages.packet(page, &body, 0);
        pages.packet(page + 1, format!("at level {level}").as_bytes(), 0);
    }
    pages
}

/// The names of the directories D1 to D`level`.
fn names_to_level(level: usize) -> Vec<u8> {
    (1..=level)
        .flat_map(|level| name(&format!("D{level}")))
        .collect()
}

/// Files down to level eight are listed and read, also below hidden directories; nine names are no path.
#[test]
fn files_down_to_level_eight_are_listed_and_read() {
    let mut rng = Rng::new(0x5600_0000);
    let button = Button::from(&nested());
    for level in 0..=8 {
        let mut path = names_to_level(level);
        path.extend(*b"FILE\x05");
        let (told, bytes) = both::read_bytes(&button, 80, &path, 10, &mut rng);
        assert_eq!((told.number, told.length), (0, 10));
        assert_eq!(bytes, format!("at level {level}").into_bytes());
        let listing = both::list(&button, 80, 2 * level as u32, &mut rng);
        assert_eq!((listing.number, listing.level), (0, level as u32));
        assert_eq!(listing.start as usize, page_of_level(level) + 1);
        // The file's name, or another, in the place of the last directory.
        for other in [*b"FILE", *b"NONE"] {
            if level > 0 {
                path[4 * level - 4..4 * level].copy_from_slice(&other);
                let told = both::read(&button, 80, &path, 10, &mut rng);
                assert_eq!(answer(told.number, told.page), answer(15, 0));
            }
        }
    }
    let mut nine_names = names_to_level(9);
    nine_names.extend(*b"FILE\x05");
    let told = both::read(&button, 80, &nine_names, 10, &mut rng);
    assert_eq!(answer(told.number, told.page), answer(14, 0));
    assert_eq!(both::list(&button, 80, 17, &mut rng), absent());
}

/// A directory at level nine is 12, told at the page of its entry.
#[test]
fn directory_at_level_nine_is_12_for_each_call() {
    let mut rng = Rng::new(0x5600_0001);
    let mut pages = nested();
    let page = page_of_level(8);
    let mut body = pages.body(page);
    body.extend(pages.entry("D9", 0x7F, 18, 0));
    pages.packet(page, &body, 0);
    let control = pages.sub_control("D8", page);
    pages.packet(18, &control, 0);
    let button = Button::from(&pages);
    let refusal = answer(12, page as u32);
    let totals = both::check(&button, 80, &mut rng);
    assert_eq!(answer(totals.number, totals.page), refusal);
    let listing = both::list(&button, 80, 0, &mut rng);
    assert_eq!(answer(listing.number, listing.page), refusal);
    let length = both::read(&button, 80, b"FILE\x05", 10, &mut rng);
    assert_eq!(answer(length.number, length.page), refusal);
}
