//! Seeded images, paths, positions and lengths, for the tests of the library's calls.

use std::collections::{BTreeMap, BTreeSet};

use crate::plans::{geometry, is_path, may_be_local};
use crate::{answer, table_bytes, Button, Tally};
use referee::builder::fault::{
    with_fault, with_random_changes, with_sealed_flips, with_two_faults,
};
use referee::builder::pages::Pages;
use referee::builder::plan::{Built, BuiltChain, BuiltEntry, ChainOf, Fill, ImagePlan};
use referee::builder::random::{random_image, random_name, random_packets, random_plan, Shape};
use referee::geometry::Geometry;
use referee::owners::table_length;
use referee::rng::Rng;
use referee::Answer;

/// How an image was made, and what is known of it by construction.
#[derive(Clone, Copy, Debug, PartialEq, Eq)]
pub enum Made {
    /// Built from a plan: every answer is known.
    Sound,
    /// One fault: its number and page are known.
    OneFault(Answer),
    /// Two faults.
    TwoFaults,
    /// Bytes of packets changed and the checks computed again.
    Sealed,
    /// Bits flipped anywhere, with the checks as they were.
    Flipped,
    /// Sound packets with random entries and pointers.
    Packets,
    /// Page length, page count or image length changed.
    Misfit,
    /// Any numbers and bytes.
    Any,
}

/// The kinds of cases.
#[derive(Clone, Copy, Debug)]
pub enum Kind {
    Sound,
    /// With a fault of this number, 2 to 13.
    OneFault(u32),
    /// With faults of these numbers, 2 to 13.
    TwoFaults([u32; 2]),
    /// Made like this, without regard to the structure: sealed, flipped, packets or misfit.
    Damaged(Made),
}

impl Kind {
    /// One of each kind, with faults of random numbers.
    pub fn each(rng: &mut Rng) -> [Kind; 7] {
        let [one, first, second] = [(); 3].map(|()| rng.between(2, 13) as u32);
        [
            Kind::Sound,
            Kind::OneFault(one),
            Kind::TwoFaults([first, second]),
            Kind::Damaged(Made::Sealed),
            Kind::Damaged(Made::Flipped),
            Kind::Damaged(Made::Packets),
            Kind::Damaged(Made::Misfit),
        ]
    }
}

/// An image to call the library with, and the plan's image that it comes from.
pub struct Case {
    pub made: Made,
    pub button: Button,
    pub built: Built,
}

impl Case {
    /// The answer that every call which checks the image must give with an owner table of so many bytes, if it is known to be refused.
    pub fn known_refusal(&self, owner_bytes: usize) -> Option<Answer> {
        let refused = answer(1, 0);
        match self.made {
            _ if !is_enough(self.button.page_count, owner_bytes) => Some(refused),
            Made::OneFault(fault) => Some(fault),
            Made::Misfit => Some(refused),
            _ => None,
        }
    }
}

/// A random page length and page count; small ones are frequent, and those around the limits too.
pub fn random_sizes(rng: &mut Rng, most_pages: usize) -> (u32, u32) {
    let lengths = [32, 33, 34, 38, 39, 40, 64, 128, 255, 256];
    let counts = [2, 3, 7, 8, 9, 16, 31, 32, 33, 255, 256, 257, 258, 300];
    let page_length = if rng.chance(50) {
        lengths[rng.below(lengths.len())]
    } else {
        rng.between(32, 256)
    };
    let page_count = if rng.chance(60) {
        counts[rng.below(counts.len())]
    } else {
        rng.between(2, most_pages)
    };
    (page_length as u32, page_count.min(most_pages) as u32)
}

/// A limit of the page count: mostly small, sometimes thousands.
fn random_limit(rng: &mut Rng) -> usize {
    match rng.below(100) {
        0..=59 => 60,
        60..=84 => 300,
        85..=94 => 1_000,
        _ => 5_000,
    }
}

/// A shape with directories nested down to level eight.
pub fn deep_shape(geometry: &Geometry, rng: &mut Rng) -> Shape {
    Shape {
        deep: true,
        free_pages: 0,
        least_entries: 2,
        most_entries: 5,
        most_file_pages: 2,
        ..Shape::random(geometry, rng)
    }
}

/// A sound image nested down to level eight, if its pages are enough for it.
pub fn deep_image(rng: &mut Rng) -> Built {
    let (page_length, page_count) = (rng.between(32, 256) as u32, rng.between(20, 300) as u32);
    let geometry = geometry(page_length, page_count);
    let shape = deep_shape(&geometry, rng);
    random_plan(page_length, page_count, shape, rng).build()
}

/// A sound image of 65,535 pages with so many entries in each directory as long as there are pages: files of up to so many pages,
/// and this part of them directories, none hidden. A few entries have stamps.
pub fn largest_image(
    page_length: u32,
    entries: usize,
    file_pages: usize,
    directory_percent: usize,
    seed: u64,
) -> Built {
    let shape = Shape {
        local_bitmap: false,
        scattered: true,
        free_pages: 0,
        least_entries: entries,
        most_entries: entries,
        most_file_pages: file_pages,
        directory_percent,
        deep: false,
        odd_packet_percent: 0,
        stamp_percent: 3,
        hidden_percent: 0,
        fill: Fill::Byte(0xFF),
    };
    random_plan(page_length, 65_535, shape, &mut Rng::new(seed)).build()
}

/// A sound image of thousands of pages, often 65,535, with up to 2,000 entries in a directory.
pub fn large_image(rng: &mut Rng) -> Built {
    let counts = [
        65_535,
        65_535,
        65_534,
        65_528,
        32_768,
        rng.between(5_001, 65_535),
    ];
    let page_count = counts[rng.below(counts.len())] as u32;
    let (page_length, _) = random_sizes(rng, 2);
    let geometry = geometry(page_length, page_count);
    let shape = Shape::random(&geometry, rng);
    let shape = Shape {
        most_entries: shape.most_entries.min(2_000),
        ..shape
    };
    random_plan(page_length, page_count, shape, rng).build()
}

/// A plan with something to delete or replace: chains mostly scattered, packets often partly filled or empty, those of a bitmap file too;
/// one in five is nested down to level eight.
pub fn worn_plan(rng: &mut Rng) -> ImagePlan {
    let limit = random_limit(rng).min(1_000);
    plan_with_free_pages(limit, |count, rng| [0, 0, 1, count][rng.below(4)], rng)
}

/// A plan like a worn one, of up to so many pages, but with some pages free.
pub fn roomy_plan(most_pages: usize, rng: &mut Rng) -> ImagePlan {
    let limit = random_limit(rng).min(most_pages);
    plan_with_free_pages(limit, |count, rng| 1 + [1, 3, 8, count][rng.below(4)], rng)
}

/// A worn plan of up to so many pages, with so many free pages at least, by those that a random shape has.
fn plan_with_free_pages(
    limit: usize,
    free_pages: impl FnOnce(usize, &mut Rng) -> usize,
    rng: &mut Rng,
) -> ImagePlan {
    let (page_length, page_count) = random_sizes(rng, limit);
    let geometry = geometry(page_length, page_count);
    let shape = if rng.chance(20) {
        deep_shape(&geometry, rng)
    } else {
        Shape::random(&geometry, rng)
    };
    let shape = Shape {
        scattered: rng.chance(85),
        least_entries: rng.between(1, 4),
        free_pages: free_pages(shape.free_pages, rng),
        odd_packet_percent: [15, 60, 60, 90][rng.below(4)],
        ..shape
    };
    random_plan(page_length, page_count, shape, rng)
}

/// A plan of a crowded button of up to so many pages: chains mostly scattered, packets often partly filled or empty, entries often with stamps. Half of
/// them have pages of 32 bytes, and one in four is nested down to level eight.
pub fn crowded_plan(most_pages: usize, rng: &mut Rng) -> ImagePlan {
    let limit = random_limit(rng).min(most_pages);
    let (any_length, page_count) = random_sizes(rng, limit);
    let page_length = if rng.chance(50) { 32 } else { any_length };
    let geometry = geometry(page_length, page_count);
    let shape = match rng.chance(25) {
        true => deep_shape(&geometry, rng),
        false => Shape::random(&geometry, rng),
    };
    let shape = Shape {
        scattered: rng.chance(85),
        least_entries: rng.below(5),
        odd_packet_percent: [0, 15, 60, 90][rng.below(4)],
        stamp_percent: [0, 20, 70, 100][rng.below(4)],
        ..shape
    };
    random_plan(page_length, page_count, shape, rng)
}

/// Page length and page count of an image with stamps: every page length, but pages are often short; one image in six has page numbers of two bytes.
fn stamped_sizes(rng: &mut Rng) -> (u32, u32) {
    let most_pages = [16, 24, 32, 32, 40, 60, 60, 300][rng.below(8)];
    let (any_length, any_count) = random_sizes(rng, most_pages);
    let lengths = [32, 32, 32, 33, 38, 39, 40, 48, 64, 128, 256];
    let page_length = match rng.chance(70) {
        true => lengths[rng.below(lengths.len())],
        false => any_length,
    };
    match rng.chance(15) {
        true => (page_length, rng.between(257, 300) as u32),
        false => (page_length, any_count),
    }
}

/// A plan of not many entries on up to some sixty pages. Most entries have stamps, or all, so that every directory with entries has some. Pages are
/// mostly short, so that directory pages are often full because of them.
pub fn stamped_plan(rng: &mut Rng) -> ImagePlan {
    let (page_length, page_count) = stamped_sizes(rng);
    let geometry = geometry(page_length, page_count);
    let unused = geometry.page_count().saturating_sub(rng.between(10, 60));
    let shape = Shape {
        free_pages: unused.max([0, 3, 5, 9][rng.below(4)]),
        least_entries: rng.between(1, 3),
        most_entries: [3, 6, 12][rng.below(3)],
        most_file_pages: rng.between(1, 3),
        stamp_percent: [40, 70, 100][rng.below(3)],
        ..Shape::random(&geometry, rng)
    };
    random_plan(page_length, page_count, shape, rng)
}

/// A plan of directories in directories, often down to level eight, of which some, many or all are hidden. There are often few pages free, or none.
pub fn hidden_plan(rng: &mut Rng) -> ImagePlan {
    let most_pages = [24, 40, 80, 300][rng.below(4)];
    let (any_length, page_count) = random_sizes(rng, most_pages);
    let page_length = match rng.chance(50) {
        true => rng.between(32, 40) as u32,
        false => any_length,
    };
    let geometry = geometry(page_length, page_count);
    let shape = Shape {
        free_pages: [0, 1, 3, 8][rng.below(4)],
        least_entries: rng.between(2, 3),
        most_entries: [3, 6, 12][rng.below(3)],
        most_file_pages: rng.between(1, 3),
        directory_percent: [15, 40][rng.below(2)],
        deep: rng.chance(70),
        hidden_percent: [12, 25, 60, 100][rng.below(4)],
        ..Shape::random(&geometry, rng)
    };
    random_plan(page_length, page_count, shape, rng)
}

/// The labels of the hidden directories among those that a path names.
pub const HIDDEN_PLACES: [&str; 6] = [
    "only directory hidden",
    "first directory hidden",
    "middle directory hidden",
    "last directory hidden",
    "several directories hidden",
    "every one of several directories hidden",
];

/// Which of the directories that these names lead to are hidden; none if none is.
pub fn hidden_places(built: &Built, names: &[u8]) -> Option<&'static str> {
    let ends = (4..=names.len()).step_by(4);
    let hidden = ends.filter(|&end| {
        built.entries.iter().any(|entry| {
            let is_hidden = entry.listing.extension == 127 && entry.listing.attribute == 1;
            is_hidden && entry.path == names[..end]
        })
    });
    let hidden: Vec<usize> = hidden.collect();
    match hidden[..] {
        [] => None,
        [4] if names.len() == 4 => Some("only directory hidden"),
        [4] => Some("first directory hidden"),
        [last] if last == names.len() => Some("last directory hidden"),
        [_] => Some("middle directory hidden"),
        _ if 4 * hidden.len() == names.len() => Some("every one of several directories hidden"),
        _ => Some("several directories hidden"),
    }
}

/// The image of a plan with one to three stamps' first bytes made less than 128, and the checks computed again; none if it has no stamp.
pub fn with_stamps_made_plain(built: &Built, rng: &mut Rng) -> Option<Vec<u8>> {
    let mut pages = Pages::of(built.page_length, built.page_count, &built.image);
    let stamped = built.entries.iter().filter(|entry| entry.stamps > 0);
    let stamped: Vec<&BuiltEntry> = stamped.collect();
    for _ in 0..rng.between(1, 3) {
        let entry = *rng.pick(&stamped)?;
        let back = rng.between(1, entry.stamps) * pages.geometry.entry_length();
        let place = entry.offset - back;
        let first = pages.page(entry.page)[place] & 0x7F;
        pages.alter(entry.page, place, &[first]);
    }
    Some(pages.image)
}

/// A number that asks format for a bitmap file (0) or a local bitmap, with a label.
pub fn labelled_local(rng: &mut Rng) -> (&'static str, u32) {
    match rng.below(10) {
        0..=4 => ("bitmap file asked for", 0),
        5..=7 => ("local bitmap asked for by 1", 1),
        8 => {
            let numbers = [2, 0x80, 0x100, 0x1_0000, 0x8000_0000, u32::MAX];
            (
                "local bitmap asked for by another number",
                numbers[rng.below(numbers.len())],
            )
        }
        _ => {
            let number = 1 + (rng.next_u64() as u32 >> 1);
            ("local bitmap asked for by any number", number)
        }
    }
}

/// A sound image of any shape; one in eight is nested down to level eight.
fn sound_image(rng: &mut Rng) -> Built {
    if rng.chance(12) {
        return deep_image(rng);
    }
    let limit = random_limit(rng);
    let (page_length, page_count) = random_sizes(rng, limit);
    random_image(page_length, page_count, rng)
}

/// A random case of this kind.
pub fn random_case(kind: Kind, rng: &mut Rng) -> Case {
    loop {
        let built = match kind {
            Kind::OneFault(12) => deep_image(rng),
            Kind::TwoFaults(numbers) if numbers.contains(&12) => deep_image(rng),
            _ => sound_image(rng),
        };
        if let Some(case) = case_of(kind, built, rng) {
            return case;
        }
    }
}

/// A sound image as a case.
pub fn sound_case(rng: &mut Rng) -> Case {
    random_case(Kind::Sound, rng)
}

/// An image with a fault of this number (2 to 13), known by construction.
pub fn fault_case(number: u32, rng: &mut Rng) -> Case {
    random_case(Kind::OneFault(number), rng)
}

/// An image with faults of these two numbers (2 to 13).
pub fn two_faults_case(numbers: [u32; 2], rng: &mut Rng) -> Case {
    random_case(Kind::TwoFaults(numbers), rng)
}

/// An image damaged without regard to its structure.
pub fn damaged_case(made: Made, rng: &mut Rng) -> Case {
    random_case(Kind::Damaged(made), rng)
}

/// A case of a built image; none if it has no place for the faults.
pub fn case_of(kind: Kind, built: Built, rng: &mut Rng) -> Option<Case> {
    let (image, made) = match kind {
        Kind::Sound => (built.image.clone(), Made::Sound),
        Kind::OneFault(number) => {
            let (image, answer) = with_fault(&built, number, rng)?;
            (image, Made::OneFault(answer))
        }
        Kind::TwoFaults(numbers) => (with_two_faults(&built, numbers, rng)?, Made::TwoFaults),
        Kind::Damaged(made) => (damaged_image(&built, made, rng), made),
    };
    let button = Button {
        image,
        ..Button::from(&built)
    };
    let mut case = Case {
        made,
        button,
        built,
    };
    if made == Made::Misfit {
        misfit(&mut case.button, rng);
    }
    Some(case)
}

/// The image damaged without regard to its structure.
fn damaged_image(built: &Built, made: Made, rng: &mut Rng) -> Vec<u8> {
    match made {
        Made::Sealed if rng.chance(50) => with_random_changes(built, rng),
        Made::Sealed => with_sealed_flips(built, rng),
        Made::Packets => random_packets(built.page_length, built.page_count, rng),
        _ => {
            let mut image = built.image.clone();
            flip(&mut image, rng);
            image
        }
    }
}

/// An image that is not accepted, or numbers that do not fit it; `kind` chooses one fault of each number, pairs of them or another damage.
pub fn faulty_case(kind: u64, rng: &mut Rng) -> Case {
    match kind % 20 {
        0..=9 => fault_case(2 + (kind / 20 % 12) as u32, rng),
        10..=12 => {
            let pair = (kind / 20 % 144) as u32;
            two_faults_case([2 + pair / 12, 2 + pair % 12], rng)
        }
        13..=15 => damaged_case(Made::Sealed, rng),
        16 | 17 => damaged_case(Made::Flipped, rng),
        18 => damaged_case(Made::Packets, rng),
        _ => damaged_case(Made::Misfit, rng),
    }
}

/// Flips some bits anywhere; no check is repaired.
pub fn flip(image: &mut [u8], rng: &mut Rng) {
    for _ in 0..rng.between(1, 3) {
        let at = rng.below(image.len());
        image[at] ^= 1 << rng.below(8);
    }
}

/// Another page length, page count or image length.
pub fn misfit(button: &mut Button, rng: &mut Rng) {
    match rng.below(6) {
        0 => button.page_length = [0, 31, 257, u32::MAX][rng.below(4)],
        1 => button.page_count = [0, 1, 65_536, u32::MAX][rng.below(4)],
        2 => button.page_length += 1,
        3 => button.page_count += 1,
        4 => button.image.truncate(rng.below(button.image.len())),
        _ => button.image.push(rng.byte()),
    }
}

/// An image that was formatted and has had some files put into it.
pub fn written(page_length: u32, page_count: u32, rng: &mut Rng) -> Vec<u8> {
    let local = may_be_local(page_count) && rng.chance(50);
    let mut button = Button::formatted(page_length, page_count, local);
    for _ in 0..rng.below(6) {
        let mut path = random_name(rng).to_vec();
        path.push(rng.below(100) as u8);
        let length = rng.below(3 * page_length as usize);
        let bytes = rng.bytes(length);
        button.put(&path, &bytes);
    }
    button.image
}

/// A small sound image, or one damaged in some way.
pub fn small_button(rng: &mut Rng) -> Button {
    let page_length = rng.between(32, 80) as u32;
    let page_count = if rng.chance(80) {
        rng.between(2, 60) as u32
    } else {
        rng.between(61, 300) as u32
    };
    let built = random_image(page_length, page_count, rng);
    let mut image = match rng.below(8) {
        0 | 1 => with_random_changes(&built, rng),
        2 | 3 => {
            let number = rng.between(2, 13) as u32;
            with_fault(&built, number, rng).map_or(built.image.clone(), |(image, _)| image)
        }
        4 => random_packets(page_length, page_count, rng),
        5 => written(page_length, page_count, rng),
        _ => built.image,
    };
    if rng.chance(15) {
        flip(&mut image, rng);
    }
    Button {
        page_length,
        page_count,
        image,
    }
}

/// Bytes of an owner table: just enough, some more that are no record, longer, or too few.
pub fn owner_bytes(page_count: u32, rng: &mut Rng) -> usize {
    let enough = table_bytes(page_count);
    match rng.below(8) {
        0 => enough + rng.between(1, 3),
        1 => enough + rng.below(40),
        2 => enough - rng.between(1, 5),
        3 => rng.below(enough),
        _ => enough,
    }
}

/// Bytes of an owner table, seldom too few, with a label; the page count may be any number.
pub fn labelled_owner_bytes(page_count: u32, rng: &mut Rng) -> (&'static str, usize) {
    let enough = table_bytes(page_count);
    match rng.below(40) {
        0..=3 => ("owner table one byte longer", enough + 1),
        4..=10 => ("owner table longer", enough + 2 + rng.below(60)),
        11 => ("owner table one byte too short", enough.saturating_sub(1)),
        12 => ("owner table one record too short", enough.saturating_sub(4)),
        13 => ("owner table of two bytes a page", enough / 2),
        14 => ("owner table too short", rng.below(enough)),
        15 => ("no owner table", 0),
        _ => ("owner table just long enough", enough),
    }
}

/// The labels of owner tables.
pub const OWNER_TABLES: [&str; 8] = [
    "owner table just long enough",
    "owner table one byte longer",
    "owner table longer",
    "owner table one byte too short",
    "owner table one record too short",
    "owner table of two bytes a page",
    "owner table too short",
    "no owner table",
];

/// Bytes of an owner table, counted by their label.
pub fn counted_owner_bytes(page_count: u32, rng: &mut Rng, tally: &mut Tally) -> usize {
    let (label, bytes) = labelled_owner_bytes(page_count, rng);
    tally.add(label);
    bytes
}

/// Whether an owner table of so many bytes is long enough.
pub fn is_enough(page_count: u32, owner_bytes: usize) -> bool {
    owner_bytes >= table_length(page_count as usize)
}

/// A number for P or N that is often just inside or outside its limits.
pub fn any_number(limits: &[u32], rng: &mut Rng) -> u32 {
    match rng.below(5) {
        0 => rng.next_u64() as u32 >> rng.below(32),
        _ => limits[rng.below(limits.len())],
    }
}

/// A length that fits, or nearly, or not at all.
pub fn any_length(fitting: u64, rng: &mut Rng) -> usize {
    let fitting = fitting.min(100_000) as usize;
    match rng.below(6) {
        0 => rng.below(2_000),
        1 => (fitting + rng.below(3)).saturating_sub(1),
        _ => fitting,
    }
}

/// Any bytes with numbers that they often fit, and bytes of an owner table.
pub fn any_button(rng: &mut Rng) -> (Button, usize) {
    let page_length = any_number(&[0, 31, 32, 33, 64, 256, 257, 65_568], rng);
    let page_count = any_number(&[0, 1, 2, 16, 31, 32, 33, 256, 257, 65_535, 65_536], rng);
    let image_bytes = any_length(u64::from(page_length) * u64::from(page_count), rng);
    let table = any_length(4 * u64::from(page_count), rng);
    let button = Button {
        page_length,
        page_count,
        image: rng.bytes(image_bytes),
    };
    (button, table)
}

/// Any bytes as a case; paths and positions are those of a small image.
pub fn any_case(rng: &mut Rng) -> Case {
    Case {
        made: Made::Any,
        button: any_button(rng).0,
        built: random_image(32, 31, rng),
    }
}

/// A position in walk order of an image with so many entries, with a label.
pub fn labelled_position(entries: usize, rng: &mut Rng) -> (&'static str, u32) {
    let entries = entries as u32;
    let inside = rng.below(entries as usize) as u32;
    match rng.below(12) {
        0..=4 if entries > 0 => ("position of an entry", inside),
        5 if entries > 0 => ("position of the last entry", entries - 1),
        6 => ("position just past the end", entries + 1),
        7 => ("position 65,536 more", 65_536 + inside),
        8 => ("position 2^32 - 1", u32::MAX),
        9 => ("any position", rng.next_u64() as u32 >> rng.below(32)),
        _ => ("position at the end", entries),
    }
}

/// Bytes of an output for a file of so many bytes, with a label.
pub fn labelled_out_bytes(file_bytes: usize, rng: &mut Rng) -> (&'static str, usize) {
    match rng.below(32) {
        0..=3 if file_bytes > 0 => ("output one byte too short", file_bytes - 1),
        4..=7 if file_bytes > 0 => ("output too short", rng.below(file_bytes)),
        8..=11 => ("no output", 0),
        12..=15 => ("output one byte longer", file_bytes + 1),
        16..=22 => ("output longer", file_bytes + rng.between(2, 300)),
        23 => ("output much longer", file_bytes + 65_536 - rng.below(2)),
        _ => ("output just long enough", file_bytes),
    }
}

/// A path to read, its label, and the length of the file that it was made from.
pub struct Wanted {
    pub label: &'static str,
    pub path: Vec<u8>,
    pub file_bytes: usize,
}

/// The entries of a built image whose chain is of this kind.
fn entries_of(built: &Built, of: ChainOf) -> Vec<&BuiltEntry> {
    let is_such = |entry: &&BuiltEntry| built.chains[entry.chain].of == of;
    built.entries.iter().filter(is_such).collect()
}

/// The files of a built image in walk order.
pub fn files(built: &Built) -> Vec<&BuiltEntry> {
    entries_of(built, ChainOf::File)
}

/// A path for a built image: of a file that is there, of something near it, or of any bytes.
pub fn random_path(built: &Built, rng: &mut Rng) -> Wanted {
    let files = files(built);
    let directories = subdirectories(built);
    if rng.chance(25) {
        return any_path(rng);
    }
    match (rng.pick(&files), rng.pick(&directories)) {
        (Some(file), _) if rng.chance(75) => path_near_file(built, file, rng),
        (_, Some(directory)) => path_near_directory(directory, rng),
        _ => any_path(rng),
    }
}

/// The directories of a built image in walk order, the root left out.
pub fn subdirectories(built: &Built) -> Vec<&BuiltEntry> {
    entries_of(built, ChainOf::Directory)
}

/// The path of a directory for a built image: of one that is there, of a new one, of a file, of something near them, or of any bytes.
pub fn random_directory_path(built: &Built, rng: &mut Rng) -> Vec<u8> {
    let directories = subdirectories(built);
    let there = rng.pick(&directories).map(|entry| entry.path.clone());
    match rng.below(20) {
        0..=5 => there.unwrap_or_default(),
        6..=10 => [there.unwrap_or_default(), random_name(rng).to_vec()].concat(),
        11 | 12 => random_name(rng).to_vec(),
        13 | 14 => match rng.pick(&files(built)) {
            // A file's name, which a directory may have too.
            Some(file) => file.path[..file.path.len() - 1].to_vec(),
            None => random_name(rng).to_vec(),
        },
        15 => [
            there.unwrap_or_default(),
            b"NONE".to_vec(),
            random_name(rng).to_vec(),
        ]
        .concat(),
        16 => {
            let mut path = there.unwrap_or_default();
            if !path.is_empty() {
                let place = rng.below(path.len());
                path[place] ^= 1 << rng.below(8);
            }
            path
        }
        17 => {
            let mut path = there.unwrap_or_default();
            path.truncate(rng.below(path.len() + 1));
            path
        }
        18 => (0..rng.between(1, 10))
            .flat_map(|_| random_name(rng))
            .collect(),
        _ => random_path(built, rng).path,
    }
}

/// A path that no image was looked at for: any bytes, or names.
fn any_path(rng: &mut Rng) -> Wanted {
    let (label, path) = if rng.chance(50) {
        let length = rng.below(41);
        ("path of any bytes", rng.bytes(length))
    } else {
        let names = rng.between(1, 10);
        let mut path: Vec<u8> = (0..names).flat_map(|_| random_name(rng)).collect();
        path.push(rng.below(104) as u8);
        ("path of any names", path)
    };
    Wanted {
        label,
        path,
        file_bytes: rng.below(40),
    }
}

/// The names of the directories on an entry's path.
pub fn directories_of(entry: &BuiltEntry) -> &[u8] {
    &entry.path[..4 * entry.listing.level as usize]
}

/// Whether one of the directories that these names lead to is hidden.
pub fn is_below_hidden(built: &Built, names: &[u8]) -> bool {
    built.entries.iter().any(|entry| {
        let hidden = entry.listing.extension == 127 && entry.listing.attribute == 1;
        hidden && names.starts_with(&entry.path)
    })
}

/// The path of a file, or one that differs from it in one respect.
fn path_near_file(built: &Built, file: &BuiltEntry, rng: &mut Rng) -> Wanted {
    let mut path = file.path.clone();
    let last = path.len() - 1;
    let label = match rng.below(16) {
        0 => {
            path[last] = rng.below(100) as u8;
            "path of a file with any extension number"
        }
        1 => {
            path[last] |= 0x80;
            "path of a file with the top bit"
        }
        2 => {
            path[last] = rng.between(100, 127) as u8;
            "path of a file with an extension above 99"
        }
        3 => {
            let name = random_name(rng);
            path.splice(last.., name);
            path.push(rng.below(100) as u8);
            "path with a file's name in the place of a directory"
        }
        4 => {
            path.truncate(rng.below(path.len()));
            "path cut short"
        }
        5 => {
            path.push(rng.byte());
            "path with a byte more"
        }
        6 => {
            path[rng.below(last + 1)] ^= 1 << rng.below(8);
            "path with a bit flipped"
        }
        7 => {
            let place = rng.below(last / 4 + 1) * 4;
            path.splice(place..place, random_name(rng));
            "path with a name more"
        }
        _ if is_below_hidden(built, directories_of(file)) => match file.listing.attribute {
            1 => "path of a read-only file below a hidden directory",
            _ => "path below a hidden directory",
        },
        _ if file.listing.attribute == 1 => "path of a read-only file",
        _ => "path of a file",
    };
    Wanted {
        label,
        path,
        file_bytes: file.bytes.len(),
    }
}

/// The path of a directory, or one that takes it for a file, or a missing file in it.
fn path_near_directory(directory: &BuiltEntry, rng: &mut Rng) -> Wanted {
    let mut path = directory.path.clone();
    let label = match rng.below(4) {
        0 => "path of a directory",
        1 => {
            path.push(127);
            "path of a directory with its extension"
        }
        2 => {
            path.push(rng.below(100) as u8);
            "path with a directory's name in the place of a file"
        }
        _ => {
            path.extend(random_name(rng));
            path.push(rng.below(100) as u8);
            "path of any file in a directory"
        }
    };
    Wanted {
        label,
        path,
        file_bytes: rng.below(40),
    }
}

/// What a sound image has, as labels to be counted.
pub fn features(built: &Built) -> Vec<&'static str> {
    let pages = Pages::of(built.page_length, built.page_count, &built.image);
    let mut labels = vec![
        if pages.geometry.number_length() == 1 {
            "one-byte page numbers"
        } else {
            "two-byte page numbers"
        },
        if built.local_bitmap {
            "local bitmap"
        } else {
            "bitmap file"
        },
    ];
    if built.entries.iter().any(|entry| entry.listing.level == 8) {
        labels.push("entry at level 8");
    }
    if built.page_count >= 1_000 {
        labels.push("thousands of pages");
    }
    for chain in &built.chains {
        labels.extend(chain_features(&pages, chain));
    }
    labels.extend(stamp_features(built));
    labels.sort_unstable();
    labels.dedup();
    labels
}

/// The labels of images with stamps.
pub const STAMPS: [&str; 15] = [
    "stamps in the root",
    "stamps in a subdirectory",
    "stamps in each of several directories",
    "stamps before a file's entry",
    "stamps before a directory's entry",
    "several stamps before one entry",
    "stamps in a later page of a directory",
    "page of stamps and one entry only",
    "page full because of stamps",
    "page full of one entry and its stamps",
    "stamp like a name",
    "stamp like an entry",
    "stamp like a marker",
    "stamp of erased bytes",
    "stamp like an entry of its directory",
];

/// The words for so many stamps.
pub const STAMP_COUNTS: [&str; 5] = [
    "no stamps",
    "one stamp",
    "two stamps",
    "three stamps",
    "more than three stamps",
];

/// The words for the number of an entry's stamps.
pub fn stamp_count(stamps: usize) -> &'static str {
    STAMP_COUNTS[stamps.min(4)]
}

/// What the stamps of a sound image are like, as labels to be counted.
pub fn stamp_features(built: &Built) -> Vec<&'static str> {
    let is_stamped = |entry: &&BuiltEntry| entry.stamps > 0;
    let stamped: Vec<&BuiltEntry> = built.entries.iter().filter(is_stamped).collect();
    let mut taken: BTreeMap<usize, Vec<usize>> = BTreeMap::new();
    let mut keys: BTreeSet<(usize, [u8; 5])> = BTreeSet::new();
    for entry in &built.entries {
        taken.entry(entry.page).or_default().push(1 + entry.stamps);
        keys.insert((entry.directory, entry_key(entry)));
    }
    let mut labels = Vec::new();
    for entry in &stamped {
        labels.extend(entry_stamp_features(built, entry, &taken[&entry.page]));
        for stamp in built.stamps_of(entry) {
            labels.extend(looks_like(built, stamp));
            if keys.contains(&(entry.directory, stamp_key(stamp))) {
                labels.push("stamp like an entry of its directory");
            }
        }
    }
    let every: BTreeSet<usize> = built.entries.iter().map(|entry| entry.directory).collect();
    let with_stamps: BTreeSet<usize> = stamped.iter().map(|entry| entry.directory).collect();
    if every.len() > 1 && every == with_stamps {
        labels.push("stamps in each of several directories");
    }
    labels
}

/// An entry's name and extension number.
fn entry_key(entry: &BuiltEntry) -> [u8; 5] {
    let [first, second, third, fourth] = entry.listing.name.to_le_bytes();
    [first, second, third, fourth, entry.listing.extension as u8]
}

/// The name and extension number that a stamp looks like.
fn stamp_key(stamp: &[u8]) -> [u8; 5] {
    [
        stamp[0] & 0x7F,
        stamp[1],
        stamp[2],
        stamp[3],
        stamp[4] & 0x7F,
    ]
}

/// What an entry with stamps is like, and the directory page that holds it, whose entries take so many slots each.
fn entry_stamp_features(built: &Built, entry: &BuiltEntry, taken: &[usize]) -> Vec<&'static str> {
    let geometry = geometry(built.page_length, built.page_count);
    let is_first = built.chains[entry.directory].pages[0] == entry.page;
    let slots = match is_first {
        true => geometry.first_page_entries(),
        false => geometry.continuation_entries(),
    };
    let is_file = built.chains[entry.chain].of == ChainOf::File;
    let met = [
        (entry.listing.level == 0, "stamps in the root"),
        (entry.listing.level > 0, "stamps in a subdirectory"),
        (is_file, "stamps before a file's entry"),
        (!is_file, "stamps before a directory's entry"),
        (entry.stamps > 1, "several stamps before one entry"),
        (!is_first, "stamps in a later page of a directory"),
        (taken.len() == 1, "page of stamps and one entry only"),
        (
            taken.iter().sum::<usize>() == slots,
            "page full because of stamps",
        ),
        (taken == [slots], "page full of one entry and its stamps"),
    ];
    let met = met.into_iter().filter(|(is, _)| *is);
    met.map(|(_, label)| label).collect()
}

/// What a stamp looks like, but for the top bit of its first byte.
fn looks_like(built: &Built, stamp: &[u8]) -> Option<&'static str> {
    let geometry = geometry(built.page_length, built.page_count);
    let path = [&stamp_key(stamp)[..4], &[1]].concat();
    let start = geometry.number_at(&stamp[5..]);
    match stamp[4] & 0x7F {
        _ if stamp.iter().all(|&byte| byte == 0xFF) => Some("stamp of erased bytes"),
        0 if stamp[0] == geometry.marker() => Some("stamp like a marker"),
        0..=99 | 127 if is_path(&path) && start < geometry.page_count() => {
            Some("stamp like an entry")
        }
        _ if is_path(&path) => Some("stamp like a name"),
        _ => None,
    }
}

/// What a chain has: empty packets, partly filled packets before its end, pages in another order than rising.
pub fn chain_features(pages: &Pages, chain: &BuiltChain) -> Vec<&'static str> {
    let [empty, part, unordered] = match chain.of {
        ChainOf::Root => [
            "empty packet in the root's chain",
            "partly filled packet in the root's chain",
            "root's chain scattered",
        ],
        ChainOf::Bitmap => [
            "empty packet in the bitmap file's chain",
            "partly filled packet in the bitmap file's chain",
            "bitmap file's chain scattered",
        ],
        ChainOf::File => [
            "empty packet in a file's chain",
            "partly filled packet in a file's chain",
            "file's chain scattered",
        ],
        ChainOf::Directory => [
            "empty packet in a directory's chain",
            "partly filled packet in a directory's chain",
            "directory's chain scattered",
        ],
    };
    let slot = match chain.of {
        ChainOf::Root | ChainOf::Directory => pages.geometry.entry_length(),
        ChainOf::Bitmap | ChainOf::File => 1,
    };
    let lengths: Vec<usize> = chain
        .pages
        .iter()
        .map(|&page| pages.body(page).len())
        .collect();
    let (_, before_last) = lengths.split_last().unwrap_or((&0, &[]));
    let has_space = |&length: &usize| length > 0 && length + slot <= pages.geometry.max_data();
    let mut labels = Vec::new();
    if lengths.contains(&0) {
        labels.push(empty);
    }
    if before_last.iter().any(has_space) {
        labels.push(part);
    }
    if chain.pages.windows(2).any(|two| two[1] < two[0]) {
        labels.push(unordered);
    }
    labels
}
