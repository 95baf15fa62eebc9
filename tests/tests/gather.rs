//! Gathering a crowded button in a second image (document 02, A7, with A2, A3 and A8): the copy and its owner records, that it holds the same tree on
//! as few pages as there can be, and the refusals.
//!
//! Programs: the library and the second program. Each call is made by both; every answer and every lent byte is compared. What the copy must be is
//! worked out on the source's plan, and again from what check, list and read tell of the copy. The archive is made by `tools/build`.

use std::collections::BTreeMap;
use std::fs;
use std::path::Path;

use common::dumps::dump;
use common::gathered::{demand_order, demand_same_tree, demand_unused, gathered_plan};
use common::generators::{
    any_case, case_of, crowded_plan, faulty_case, features, files, is_enough, labelled_owner_bytes,
    random_path, sound_case, Case, Kind, OWNER_TABLES, STAMPS,
};
use common::plans::{directories, formatted_plan, geometry, may_be_local};
use common::trees::{page_order, trees, Most};
use common::{
    agreed, answer, both, chain_of, records, run_seeds, table_bytes, Button, Record, Tally, FREE,
};
use referee::builder::pages::{name, path, Pages};
use referee::builder::plan::{
    BitmapPlan, Built, Chain, DirectoryPlan, FilePlan, Fill, ImagePlan, Item, Stamps,
};
use referee::builder::random::{random_image, random_plan, Shape};
use referee::geometry::Geometry;
use referee::rng::Rng;
use referee::Answer;

/// Demands the copy that is written by hand, page by page, and these owner records of its pages in use.
fn demand_copy(source: &Pages, expected: &Pages, used: &[(u16, u16)]) {
    let (told, copy, owners) = Button::from(source).gather();
    assert_eq!(told, answer(0, 0));
    for page in 0..copy.page_count as usize {
        assert_eq!(copy.page(page), expected.page(page), "page {page}");
    }
    assert_eq!(owners[..used.len()], *used);
    assert!(owners[used.len()..].iter().all(|&record| record == FREE));
}

/// An image of FF bytes.
fn unused(page_length: u32, page_count: u32) -> Pages {
    let mut pages = Pages::new(page_length, page_count);
    pages.image.fill(0xFF);
    pages
}

/// A directory in a directory: each back reference tells the new start page of its parent. The root's entries stand on its third page, those of the
/// directories on their second; the packets before them have none.
#[test]
fn back_references_tell_the_new_start_pages() {
    let mut source = Pages::new(32, 16);
    let root = source.local_control(&[0, 2, 3, 5, 6, 8, 9, 11, 14]);
    let upper = [source.entry("E", 0, 2, 1), source.entry("UP", 0xFF, 14, 0)];
    let lower = source.entry("LOW", 127, 5, 0);
    let file = source.entry("F", 0x8C, 3, 1);
    let (first, second) = (source.sub_control("ROOT", 0), source.sub_control("UP", 14));
    source.packet(0, &root, 8).packet(8, &[], 6);
    source.packet(6, &upper.concat(), 0).packet(2, &[], 0);
    source.packet(14, &first, 9).packet(9, &lower, 0);
    source.packet(5, &second, 11).packet(11, &file, 0);
    source.packet(3, b"f", 0);
    let mut copy = unused(32, 16);
    let root = [
        copy.local_control(&[0, 1, 2, 3, 4]),
        copy.entry("E", 0, 1, 1),
        copy.entry("UP", 0xFF, 2, 0),
    ];
    let upper = [copy.sub_control("ROOT", 0), copy.entry("LOW", 127, 3, 0)];
    let lower = [copy.sub_control("UP", 2), copy.entry("F", 0x8C, 4, 1)];
    copy.packet(0, &root.concat(), 0).packet(1, &[], 0);
    copy.packet(2, &upper.concat(), 0);
    copy.packet(3, &lower.concat(), 0).packet(4, b"f", 0);
    let owners = [(1, 0), (3, 0), (4, 0), (5, 0), (6, 0)];
    demand_copy(&source, &copy, &owners);
}

/// The bytes of a bitmap file for 300 pages, of which these are marked.
fn bits_of_300(marked: &[usize]) -> [u8; 38] {
    let mut bits = [0; 38];
    for page in marked {
        bits[page / 8] |= 1 << (page % 8);
    }
    bits
}

/// A stamp with page numbers of two bytes.
const LONG_STAMP: [u8; 9] = [0xAB, 0, 0, 0, 0, 0, 0, 0, 0];

/// Page numbers of two bytes: an empty file on three pages, a stamp before a directory without entries, a read-only file of 1 and 27 bytes, each
/// entry on a root page of its own. The bitmap file's 38 bytes stand on four pages, one of them empty.
fn source_of_300_pages() -> Pages {
    let mut pages = Pages::new(32, 300);
    let root = [pages.file_control(299, 4), pages.entry("NIL", 0, 280, 3)];
    let second = [LONG_STAMP.to_vec(), pages.entry("SUB", 0x7F, 270, 0)];
    let third = pages.entry("LONG", 0x81, 260, 2);
    pages.packet(0, &root.concat(), 250);
    pages.packet(250, &second.concat(), 251);
    pages.packet(251, &third, 0);
    pages.packet(280, &[], 281).packet(281, &[], 282);
    pages.packet(282, &[], 0);
    let control = pages.sub_control("ROOT", 0);
    pages.packet(270, &control, 0);
    pages.packet(260, &[7; 1], 259).packet(259, &[8; 27], 0);
    let used = [
        0, 250, 251, 259, 260, 270, 280, 281, 282, 296, 297, 298, 299,
    ];
    let bits = bits_of_300(&used);
    pages.packet(299, &bits[..1], 298).packet(298, &[], 297);
    pages.packet(297, &bits[1..28], 296);
    pages.packet(296, &bits[28..], 0);
    pages
}

/// Two slots in a first page, three in another, 27 bytes in a packet: the bitmap file stands on pages 1 and 2, the root's further page is 3, since
/// SUB and its stamp do not fit page 0, and each chain follows in walk order.
#[test]
fn two_byte_numbers_by_hand() {
    let mut copy = unused(32, 300);
    let root = [copy.file_control(1, 2), copy.entry("NIL", 0, 4, 1)];
    let second = [
        LONG_STAMP.to_vec(),
        copy.entry("SUB", 0x7F, 5, 0),
        copy.entry("LONG", 0x81, 6, 2),
    ];
    let bits = bits_of_300(&[0, 1, 2, 3, 4, 5, 6, 7]);
    copy.packet(0, &root.concat(), 3);
    copy.packet(1, &bits[..27], 2).packet(2, &bits[27..], 0);
    copy.packet(3, &second.concat(), 0).packet(4, &[], 0);
    let control = copy.sub_control("ROOT", 0);
    copy.packet(5, &control, 0);
    let front = [[7; 1].as_slice(), &[8; 26]].concat();
    copy.packet(6, &front, 7).packet(7, &[8; 1], 0);
    let owners = [1, 2, 2, 1, 3, 4, 5, 5]
        .into_iter()
        .zip([0, 0, 1, 1, 0, 0, 0, 1]);
    let owners: Vec<Record> = owners.collect();
    demand_copy(&source_of_300_pages(), &copy, &owners);
}

/// A formatted button is gathered but for its unused bytes.
#[test]
fn formatted_buttons_stay_but_for_unused_bytes() {
    for (page_length, page_count) in [(32, 2), (32, 32), (33, 33), (64, 256), (256, 257)] {
        for local in [false, true] {
            if local && !may_be_local(page_count) {
                continue;
            }
            let expected = ImagePlan {
                fill: Fill::Byte(0xFF),
                ..formatted_plan(page_length, page_count, local)
            };
            let copy = Button::formatted(page_length, page_count, local).gathered();
            assert!(copy.image == expected.build().image, "{page_count} pages");
        }
    }
}

/// A local bitmap of 32 pages stays local, with every page in use; the only unused bytes are those behind the root's packet and the last of the file.
#[test]
fn local_bitmap_of_32_full_pages_stays() {
    let mut button = Button::formatted(32, 32, true);
    let bytes = [5; 31 * 28 - 1];
    assert_eq!(button.put(b"ALL \x00", &bytes).0, answer(0, 0));
    let mut expected = button.pages();
    expected.page_mut(0)[18..].fill(0xFF);
    expected.page_mut(31)[31] = 0xFF;
    let (told, copy, owners) = button.gather();
    assert_eq!(told, answer(0, 0));
    assert!(copy == Button::from(&expected));
    assert_eq!(copy.page(0)[3..8], [0x80, 0xFF, 0xFF, 0xFF, 0xFF]);
    assert_eq!(chain_of(&owners, 3), (1..32).collect::<Vec<usize>>());
}

/// What each directory of a copy is like, as labels to be counted.
fn directory_features(plan: &ImagePlan) -> Vec<&'static str> {
    let sizes = geometry(plan.page_length, plan.page_count);
    let mut labels = Vec::new();
    for (_, directory) in directories(plan) {
        let slots = directory.slots();
        if directory.items.is_empty() {
            labels.push("directory without entries");
        } else if slots[0] == 0 {
            labels.push("first page without entries, since stamps do not fit");
        }
        let full = |page: usize| match page {
            0 => sizes.first_page_entries(),
            _ => sizes.continuation_entries(),
        };
        if (0..slots.len() - 1).any(|page| slots[page] < full(page)) {
            labels.push("slots left, since stamps do not fit");
        }
        if slots.len() > 2 {
            labels.push("directory of several pages");
        }
    }
    labels
}

/// What a source and its copy are like, as labels to be counted.
fn copy_features(before: &Built, after: &Built) -> Vec<&'static str> {
    let mut labels = vec![match before.totals.used > after.totals.used {
        true => "fewer pages in use than before",
        false => "as many pages in use as before",
    }];
    if after.totals.used == after.page_count {
        labels.push("every page of the copy in use");
    }
    for entry in before.entries.iter().map(|entry| &entry.listing) {
        labels.push(match (entry.extension, entry.attribute) {
            (127, 1) => "hidden directory",
            (127, _) => "directory",
            (_, 1) => "read-only file",
            _ => "file",
        });
    }
    labels
}

/// What sources and copies must have been like often.
const MET: [&str; 24] = [
    "one-byte page numbers",
    "two-byte page numbers",
    "local bitmap",
    "bitmap file",
    "entry at level 8",
    "empty packet in the root's chain",
    "partly filled packet in the root's chain",
    "root's chain scattered",
    "empty packet in the bitmap file's chain",
    "partly filled packet in the bitmap file's chain",
    "bitmap file's chain scattered",
    "empty packet in a file's chain",
    "partly filled packet in a file's chain",
    "file's chain scattered",
    "empty packet in a directory's chain",
    "partly filled packet in a directory's chain",
    "directory's chain scattered",
    "fewer pages in use than before",
    "as many pages in use as before",
    "directory without entries",
    "directory of several pages",
    "slots left, since stamps do not fit",
    "hidden directory",
    "read-only file",
];

/// Demands of the copy of an image that it is as planned, by bytes and owner records and by what check tells of it, that its chains stand in order
/// and its unused bytes are FF, and that a copy of the copy has the same bytes.
fn demand_planned(before: &Built, expected: &Built) -> Button {
    let source = Button::from(before);
    let (told, copy, owners) = source.gather();
    assert_eq!(told, answer(0, 0));
    let differs = |page: &usize| copy.page(*page) != Button::from(expected).page(*page);
    if copy.image != expected.image {
        let page = (0..copy.page_count as usize).find(differs);
        panic!("page {page:?} of the copy is as planned");
    }
    assert_eq!(owners, records(&expected.owners));
    let (totals, checked) = copy.check();
    assert_eq!(totals, expected.totals);
    demand_order(&checked);
    demand_unused(&copy, &checked);
    assert!(copy.gathered() == copy, "a copy of the copy");
    copy
}

/// Images of all kinds: the copy is as planned, and the calls tell the same tree of both.
#[test]
fn copies_of_random_images_are_as_planned() {
    let mut tally = Tally::default();
    run_seeds(0xA700_0000..0xA700_0000 + 5_000, |_, rng| {
        let plan = crowded_plan(1_000, rng);
        let gathered = gathered_plan(&plan);
        let (before, after) = (plan.build(), gathered.build());
        let copy = demand_planned(&before, &after);
        assert!(after.totals.used <= before.totals.used);
        let most = if plan.page_count < 70 { 60 } else { 12 };
        if before.entries.len() <= most {
            tally.add("trees compared");
            demand_same_tree(&Button::from(&before), &copy);
        }
        count_length(&copy, &mut tally);
        let copied = copy_features(&before, &after).into_iter();
        let laid = directory_features(&gathered);
        for label in features(&before).into_iter().chain(copied).chain(laid) {
            tally.add(label);
        }
    });
    tally.print();
    demand_third(&tally);
    tally.demand(3_000, &["trees compared"]);
    tally.demand(200, &MET);
    tally.demand(
        200,
        &["first page without entries, since stamps do not fit"],
    );
    tally.demand(200, &["every page of the copy in use"]);
    tally.demand(100, &STAMPS);
}

/// A plan of 65,535 pages: so many entries in each directory, files of up to so many pages, this part of the entries directories.
fn largest_plan(
    page_length: u32,
    entries: usize,
    file_pages: usize,
    directory_percent: usize,
    rng: &mut Rng,
) -> ImagePlan {
    let shape = Shape {
        local_bitmap: false,
        scattered: true,
        free_pages: 100,
        least_entries: entries,
        most_entries: entries,
        most_file_pages: file_pages,
        directory_percent,
        odd_packet_percent: 30,
        stamp_percent: 20,
        ..Shape::random(&geometry(page_length, 65_535), rng)
    };
    random_plan(page_length, 65_535, shape, rng)
}

/// 65,535 pages: nested directories, many entries in one directory, and long files. Some files are read besides.
#[test]
fn copies_of_the_largest_images_are_as_planned() {
    let mut rng = Rng::new(0xA710_0000);
    for (page_length, entries, file_pages, directories) in
        [(32, 60, 40, 20), (32, 1_500, 60, 0), (64, 40, 3_000, 0)]
    {
        let plan = largest_plan(page_length, entries, file_pages, directories, &mut rng);
        let (before, after) = (plan.build(), gathered_plan(&plan).build());
        assert!(after.totals.used < before.totals.used);
        let copy = demand_planned(&before, &after);
        let files = files(&before);
        for file in [files[0], files[files.len() / 2], files[files.len() - 1]] {
            assert_eq!(copy.read(&file.path), (0, file.bytes.clone()));
        }
    }
}

/// A crowded image that is not accepted, or numbers that do not fit it: one fault of each number in turn, two faults, or another damage.
fn crowded_and_faulty(kind: u64, rng: &mut Rng) -> Case {
    let number = 2 + (kind / 2 % 12) as u32;
    loop {
        let others = Kind::each(rng);
        let fault = match kind % 2 {
            0 => Kind::OneFault(number),
            _ => others[rng.between(1, others.len() - 1)],
        };
        let built = crowded_plan(300, rng).build();
        if let Some(case) = case_of(fault, built, rng) {
            return case;
        }
    }
}

/// A crowded image that is accepted.
fn crowded_case(rng: &mut Rng) -> Case {
    let built = crowded_plan(300, rng).build();
    case_of(Kind::Sound, built, rng).expect("a sound image")
}

/// Counts an image, and whether it has pages of 32 bytes.
fn count_length(button: &Button, tally: &mut Tally) {
    tally.add("images");
    if button.page_length == 32 {
        tally.add("pages of 32 bytes");
    }
}

/// Demands that at least a third of the images had pages of 32 bytes.
fn demand_third(tally: &Tally) {
    let third = tally.count("images").div_ceil(3);
    tally.demand(third as u32, &["pages of 32 bytes"]);
}

/// Images with faults: the check's number and page, the owner table of the source, which is all zeros, and a copy as it was.
#[test]
fn faulty_images_are_refused_as_the_check_refuses_them() {
    let mut tally = Tally::default();
    run_seeds(0xA720_0000..0xA720_0000 + 3_000, |seed, rng| {
        let case = match seed % 5 {
            0 => faulty_case(seed / 5, rng),
            _ => crowded_and_faulty(seed, rng),
        };
        let (told, _, _) = case.button.gather();
        let checked = case.button.check().0;
        assert_eq!(told, answer(checked.number, checked.page));
        if let Some(known) = case.known_refusal(usize::MAX) {
            assert_eq!(told, known, "known by construction");
        }
        tally.add(format!("gather {}", told.number));
        count_length(&case.button, &mut tally);
    });
    tally.print();
    demand_third(&tally);
    tally.demand_numbers("gather", 50, 1..=13);
}

/// The bytes of a second image beside one of so many bytes, with a label.
fn labelled_copy_bytes(button: &Button, rng: &mut Rng) -> (&'static str, usize) {
    let image = button.image.len();
    match rng.below(12) {
        0 => ("no copy", 0),
        1 => ("copy one byte too short", image.saturating_sub(1)),
        2 => ("copy one byte longer", image + 1),
        3 => (
            "copy one page too short",
            image - image.min(button.page_length.min(256) as usize),
        ),
        4 => ("copy of any length", rng.below(2 * image + 2)),
        5 => ("copy twice as long", 2 * image),
        _ => ("copy as long as the image", image),
    }
}

/// The labels of second images.
const COPIES: [&str; 7] = [
    "no copy",
    "copy one byte too short",
    "copy one byte longer",
    "copy one page too short",
    "copy of any length",
    "copy twice as long",
    "copy as long as the image",
];

/// Demands the answer of a gather with a second image and an owner table of any length, and what it leaves: another length than the image's is 1
/// before all else, and 1 leaves the table alone.
fn demand_lengths(case: &Case, rng: &mut Rng, tally: &mut Tally) {
    let button = &case.button;
    let (copy_label, copy_bytes) = labelled_copy_bytes(button, rng);
    let (owner_label, owner_bytes) = labelled_owner_bytes(button.page_count, rng);
    let (mut copy, mut owners) = (rng.bytes(copy_bytes), rng.bytes(owner_bytes));
    let before = (copy.clone(), owners.clone());
    let (p, n, image) = (button.page_length, button.page_count, &button.image);
    let told = agreed::gather(p, n, image, &mut copy, &mut owners);
    let mut checked = before.1.clone();
    let check = referee::check(p, n, image, &mut checked);
    if copy_bytes != image.len() {
        assert_eq!(told, answer(1, 0), "{copy_label}, {owner_label}");
        assert!(owners == before.1, "owner table after 1");
    } else {
        assert_eq!(told, answer(check.number, check.page), "{owner_label}");
        assert!(told.number == 0 || owners == checked, "owners of the image");
    }
    assert!(told.number == 0 || copy == before.0, "copy after a refusal");
    let records = table_bytes(n).min(owner_bytes);
    assert_eq!(owners[records..], before.1[records..], "rest of the table");
    let enough = is_enough(n, owner_bytes);
    assert!(enough || told.number == 1, "{owner_label}");
    tally.add(copy_label);
    tally.add(owner_label);
    tally.add(format!("{copy_label}: {}", told.number));
    tally.add(format!("gather {}", told.number));
}

#[test]
fn another_length_of_the_copy_is_1_before_all_else() {
    let mut tally = Tally::default();
    run_seeds(0xA730_0000..0xA730_0000 + 4_000, |seed, rng| {
        let case = match seed % 10 {
            0 => sound_case(rng),
            1 => faulty_case(seed / 10, rng),
            2..=6 => crowded_and_faulty(seed / 10, rng),
            _ => crowded_case(rng),
        };
        demand_lengths(&case, rng, &mut tally);
        count_length(&case.button, &mut tally);
    });
    run_seeds(0xA731_0000..0xA731_0000 + 1_000, |_, rng| {
        demand_lengths(&any_case(rng), rng, &mut tally);
    });
    tally.print();
    demand_third(&tally);
    tally.demand(50, &COPIES);
    tally.demand(20, &OWNER_TABLES);
    tally.demand(100, &["copy as long as the image: 0"]);
    tally.demand_numbers("gather", 5, 1..=13);
}

/// What the second image and the owner table held before does not matter: any bytes, those of the image, or a copy that was made before.
#[test]
fn earlier_bytes_of_the_copy_do_not_matter() {
    run_seeds(0xA738_0000..0xA738_0000 + 300, |_, rng| {
        let source = Button::from(&crowded_plan(300, rng).build());
        let (p, n, image) = (source.page_length, source.page_count, &source.image);
        let expected = source.gathered().image;
        let other = Button::from(&random_image(p, n, rng)).gathered().image;
        for mut copy in [image.clone(), expected.clone(), other] {
            let told = agreed::gather(p, n, image, &mut copy, &mut rng.bytes(table_bytes(n)));
            assert_eq!(told, answer(0, 0));
            assert!(copy == expected);
        }
        let (told, copy) = both::gather(&source, image.len(), table_bytes(n), rng);
        assert_eq!(told, answer(0, 0));
        assert!(copy == expected);
    });
}

/// Each other length of a small second image, beside a sound image and one with a fault.
#[test]
fn every_other_length_of_a_small_copy_is_1() {
    let sound = Button::formatted(32, 3, true);
    let mut broken = sound.clone();
    broken.image[5] ^= 1;
    for button in [sound, broken] {
        for copy_bytes in (0..300).filter(|&bytes| bytes != 96) {
            for owner_bytes in [0, 11, 12, 13] {
                let (mut copy, mut owners) = (vec![1; copy_bytes], vec![2; owner_bytes]);
                let told = agreed::gather(32, 3, &button.image, &mut copy, &mut owners);
                assert_eq!(told, answer(1, 0), "{copy_bytes} bytes");
                assert_eq!((copy, owners), (vec![1; copy_bytes], vec![2; owner_bytes]));
            }
        }
    }
}

/// Every sequence of up to so many numbers from 1 to a greatest.
fn sequences(most_length: usize, greatest: usize) -> Vec<Vec<usize>> {
    let mut all = vec![Vec::new()];
    let mut last = all.clone();
    for _ in 0..most_length {
        let longer = last.iter().flat_map(|front| {
            let with = |number: usize| [front.as_slice(), &[number]].concat();
            (1..=greatest).map(with)
        });
        last = longer.collect();
        all.extend(last.clone());
    }
    all
}

/// Every way to lay so many things in order into so many places, each of which takes up to so many; places may stay empty.
fn distributions(things: usize, places: usize, most: usize) -> Vec<Vec<usize>> {
    let Some(others) = places.checked_sub(1) else {
        return if things == 0 {
            vec![Vec::new()]
        } else {
            Vec::new()
        };
    };
    let first = 0..=things.min(most);
    let with = |count: usize| {
        let rest = distributions(things - count, others, most).into_iter();
        rest.map(move |rest| [&[count], rest.as_slice()].concat())
    };
    first.flat_map(with).collect()
}

/// Files of one page each, whose entries take these slots with their stamps.
fn slot_items(sizes: &Geometry, slots: &[usize], pool: &mut Vec<usize>) -> (Vec<Item>, Stamps) {
    let mut items = Vec::new();
    let mut stamps = Stamps::new();
    for (number, &taken) in slots.iter().enumerate() {
        let text = format!("F{number}");
        let chain = Chain::full(&[pool.pop().expect("a page")], 2, sizes.max_data());
        let item = Item::File(FilePlan::new(name(&text), 1, text.as_bytes(), chain));
        let own = |stamp: usize| vec![0x80 | stamp as u8; sizes.entry_length()];
        let first = 10 * number;
        let own_stamps = (first + 1..first + taken).map(own).collect();
        stamps.insert(item.key(), own_stamps);
        items.push(item);
    }
    (items, stamps)
}

/// A directory to be laid out in every way: the root, or one in the root; on an image of so many pages of 32 bytes.
#[derive(Clone, Copy)]
struct Place {
    page_count: u32,
    in_root: bool,
}

impl Place {
    /// The image with so many entries in each page of the directory, on pages in a random order; none if they do not fit.
    fn image(self, slots: &[usize], counts: &[usize], rng: &mut Rng) -> Option<Built> {
        let sizes = geometry(32, self.page_count);
        let mut done = 0;
        for (place, &count) in counts.iter().enumerate() {
            let space = match place {
                0 => sizes.first_page_entries(),
                _ => sizes.continuation_entries(),
            };
            if slots[done..done + count].iter().sum::<usize>() > space {
                return None;
            }
            done += count;
        }
        let local = may_be_local(self.page_count);
        let plan = formatted_plan(32, self.page_count, local);
        let taken = plan.used_pages();
        let mut pool = page_order(self.page_count, 2, rng);
        pool.retain(|page| !taken.contains(page));
        Some(self.plan(plan, slots, counts, pool).build())
    }

    /// The plan of a formatted image with this directory in it.
    fn plan(
        self,
        plan: ImagePlan,
        slots: &[usize],
        counts: &[usize],
        mut pool: Vec<usize>,
    ) -> ImagePlan {
        let sizes = geometry(32, self.page_count);
        let first = match self.in_root {
            true => 0,
            false => pool.pop().expect("a page"),
        };
        let further = pool.split_off(pool.len() + 1 - counts.len());
        let (items, stamps) = slot_items(&sizes, slots, &mut pool);
        let directory = DirectoryPlan {
            pages: [vec![first], further].concat(),
            counts: counts.to_vec(),
            items,
            stamps,
        };
        let root = match self.in_root {
            true => directory,
            false => DirectoryPlan {
                counts: vec![1],
                items: vec![Item::Directory {
                    name: name("SUB"),
                    hidden: false,
                    directory,
                }],
                ..plan.root
            },
        };
        ImagePlan { root, ..plan }
    }

    /// Demands one and the same copy of every layout with these slots, up to a page more than the copy has, and no layout on fewer pages. A number of
    /// pages is tried after all smaller ones, so the first layout that fits tells the least.
    fn demand_least(self, slots: &[usize], rng: &mut Rng, tally: &mut Tally) {
        let owner = if self.in_root { 1 } else { 3 };
        let mut met: Option<(usize, Button)> = None;
        for pages in 1.. {
            for counts in distributions(slots.len(), pages, slots.len()) {
                let Some(built) = self.image(slots, &counts, rng) else {
                    tally.add("layout that does not fit");
                    continue;
                };
                tally.add("layout that fits");
                let (told, copy, owners) = Button::from(&built).gather();
                assert_eq!(told, answer(0, 0));
                let (least, first) = met.get_or_insert((pages, copy.clone()));
                assert_eq!(chain_of(&owners, owner).len(), *least, "{slots:?}");
                assert!(copy == *first, "{slots:?} laid out as {counts:?}");
            }
            if met.as_ref().is_some_and(|(least, _)| pages > *least) {
                return;
            }
        }
    }
}

/// Every directory of up to five entries (four with page numbers of two bytes) with up to as many stamps as fit a page, in every layout over pages,
/// empty ones too: the copies of all layouts are the same, and none has fewer pages than the copy. Page numbers of one byte and of two, in the root
/// and in a directory. The pages in use are those of the chains, which share none; so if no chain can be shorter, no image has fewer.
#[test]
fn no_layout_of_a_directory_has_fewer_pages() {
    let mut tally = Tally::default();
    let mut rng = Rng::new(0xA740_0000);
    for (page_count, most_entries) in [(18, 5), (257, 4)] {
        let greatest = geometry(32, page_count).continuation_entries();
        for slots in sequences(most_entries, greatest) {
            for in_root in [true, false] {
                let place = Place {
                    page_count,
                    in_root,
                };
                place.demand_least(&slots, &mut rng, &mut tally);
            }
        }
    }
    tally.print();
    tally.demand(5_000, &["layout that fits", "layout that does not fit"]);
}

/// Every way to split a file of up to 57 bytes over up to three packets: the copies are the same, and no split has fewer packets than the copy has
/// pages.
#[test]
fn no_split_of_a_file_has_fewer_pages() {
    let mut rng = Rng::new(0xA750_0000);
    for length in 0..=57 {
        let bytes: Vec<u8> = (0..length as u8).collect();
        let mut met: Option<(usize, Button)> = None;
        for packets in 1..=3 {
            for lengths in distributions(length, packets, 28) {
                let pages = page_order(16, 2, &mut rng)[..packets].to_vec();
                let chain = Chain { pages, lengths };
                let file = FilePlan::new(name("F"), 1, &bytes, chain);
                let mut plan = formatted_plan(32, 16, true);
                plan.root.counts = vec![1];
                plan.root.items = vec![Item::File(file)];
                let (told, copy, owners) = Button::from(&plan.build()).gather();
                assert_eq!(told, answer(0, 0));
                let (least, first) = met.get_or_insert((packets, copy.clone()));
                assert_eq!(chain_of(&owners, 3).len(), *least, "{length} bytes");
                assert!(copy == *first, "{length} bytes");
            }
        }
        assert!(met.is_some(), "{length} bytes");
    }
}

/// Every way to split a bitmap file over up to three packets: the copies are the same, and no split has fewer packets than the copy has pages.
#[test]
fn no_split_of_a_bitmap_file_has_fewer_pages() {
    let mut rng = Rng::new(0xA760_0000);
    for page_count in [4, 16, 32, 33, 100, 224, 225, 256, 257, 300] {
        let sizes = geometry(32, page_count);
        let mut met: Option<(usize, Button)> = None;
        for packets in 1..=3 {
            let total = sizes.bitmap_file_length();
            for lengths in distributions(total, packets, sizes.max_data()) {
                let pages = page_order(page_count, 2, &mut rng)[..packets].to_vec();
                let bitmap = BitmapPlan::File(Chain { pages, lengths });
                let plan = ImagePlan {
                    bitmap,
                    ..formatted_plan(32, page_count, false)
                };
                let (told, copy, owners) = Button::from(&plan.build()).gather();
                assert_eq!(told, answer(0, 0));
                let (least, first) = met.get_or_insert((packets, copy.clone()));
                assert_eq!(chain_of(&owners, 2).len(), *least, "{page_count} pages");
                assert!(copy == *first, "{page_count} pages");
            }
        }
        assert!(met.is_some(), "{page_count} pages");
    }
}

/// Every order of so many of some pages.
fn orders(pages: &[usize], count: usize) -> Vec<Vec<usize>> {
    if count == 0 {
        return vec![Vec::new()];
    }
    let with = |&first: &usize| {
        let others: Vec<usize> = pages
            .iter()
            .copied()
            .filter(|&page| page != first)
            .collect();
        let rest = orders(&others, count - 1).into_iter();
        rest.map(move |rest| [&[first], rest.as_slice()].concat())
    };
    pages.iter().flat_map(with).collect()
}

/// A small tree on these seven pages: a bitmap file, a second page of the root, a directory with a file, and a file on two pages.
fn seven_pages(pages: &[usize]) -> Built {
    let file = |text: &str, pages: &[usize], lengths: &[usize]| {
        let bytes: Vec<u8> = (0..lengths.iter().sum::<usize>() as u8).collect();
        let chain = Chain {
            pages: pages.to_vec(),
            lengths: lengths.to_vec(),
        };
        Item::File(FilePlan::new(name(text), 1, &bytes, chain))
    };
    let below = DirectoryPlan {
        pages: vec![pages[2]],
        counts: vec![1],
        items: vec![file("IN", &pages[3..4], &[3])],
        ..DirectoryPlan::default()
    };
    let sub = Item::Directory {
        name: name("SUB"),
        hidden: true,
        directory: below,
    };
    let mut plan = formatted_plan(32, 9, false);
    plan.bitmap = BitmapPlan::File(Chain::full(&pages[..1], 2, 28));
    plan.root = DirectoryPlan {
        pages: vec![0, pages[1]],
        counts: vec![1, 2],
        items: vec![
            file("A", &pages[6..7], &[0]),
            sub,
            file("LOG", &pages[4..6], &[20, 9]),
        ],
        ..DirectoryPlan::default()
    };
    plan.build()
}

/// Every order of the seven pages of a small tree over eight: one and the same copy, the root on one page.
#[test]
fn every_order_of_the_pages_has_one_copy() {
    let pages: Vec<usize> = (1..9).collect();
    let first = Button::from(&seven_pages(&pages[..7])).gathered();
    assert_eq!(first.check().0.used, 7);
    let all = orders(&pages, 7);
    assert_eq!(all.len(), 40_320);
    for order in &all {
        let built = seven_pages(order);
        assert_eq!(built.totals.used, 8);
        assert!(Button::from(&built).gathered() == first, "pages {order:?}");
    }
}

/// Every small tree with up to two pages of the root and of a directory in it: trees that hold the same have one copy, and among all of them the one
/// with the fewest pages in use has as many as the copy.
#[test]
fn copy_of_every_small_tree_has_the_fewest_pages() {
    let mut rng = Rng::new(0xA770_0000);
    let mut met: BTreeMap<String, (Button, u32, u32)> = BTreeMap::new();
    let most = Most {
        root_pages: 2,
        sub_pages: 2,
        first_pages: 1,
        stamps: 1,
    };
    for (kind, tree) in trees(24, 0, most).into_iter().enumerate() {
        let pages = page_order(tree.page_count, kind, &mut rng);
        let plan = match tree.plan(&pages) {
            Some(plan) if !tree.in_sub => plan,
            _ => continue,
        };
        let sub = tree.sub.as_ref().map(|slots| slots.concat());
        let held = format!("{} {:?} {sub:?}", tree.local_bitmap, tree.root.concat());
        let built = plan.build();
        let copy = Button::from(&built).gathered();
        let used = copy.check().0.used;
        let known = met.entry(held).or_insert((copy.clone(), used, u32::MAX));
        assert!(copy == known.0, "{tree:?}");
        known.2 = known.2.min(built.totals.used);
    }
    assert!(met.len() > 1_000, "{} trees", met.len());
    for (held, (_, used, fewest)) in &met {
        assert_eq!(used, fewest, "{held}");
    }
}

/// Whatever can be put to a button can be put to its copy: every other chain of the copy is no longer, and a directory of the copy without space is
/// one that needs a page more in any image.
#[test]
fn what_can_be_put_before_can_be_put_after() {
    let mut tally = Tally::default();
    run_seeds(0xA780_0000..0xA780_0000 + 1_500, |_, rng| {
        let built = crowded_plan(60, rng).build();
        let source = Button::from(&built);
        let copy = source.gathered();
        for _ in 0..3 {
            let path = random_path(&built, rng).path;
            let free = source.page_count - built.totals.used;
            let length = rng.below((free as usize + 3) * source.page_length as usize);
            let bytes = rng.bytes(length);
            let before = source.clone().put(&path, &bytes).0.number;
            let mut put = copy.clone();
            let after = put.put(&path, &bytes).0.number;
            assert!(after == before || (after, before) == (0, 17));
            tally.add(format!("{before} before, {after} after"));
            if after == 0 {
                assert_eq!(put.read(&path), (0, bytes));
            }
        }
    });
    tally.print();
    tally.demand(50, &["0 before, 0 after", "17 before, 17 after"]);
    tally.demand(50, &["17 before, 0 after", "16 before, 16 after"]);
}

/// A season of a button: files put, replaced and deleted, directories made and removed.
fn season(button: &mut Button, rng: &mut Rng) {
    let mut directories: Vec<Vec<u8>> = vec![Vec::new()];
    for _ in 0..rng.between(10, 60) {
        let names = rng.pick(&directories).cloned().unwrap_or_default();
        let own = [b'A' + rng.below(6) as u8, b' ', b' ', b' '];
        let file = [names.as_slice(), &own, &[7]].concat();
        let below = [names.as_slice(), &own].concat();
        match rng.below(10) {
            0..=4 => {
                let length = rng.below(4 * button.page_length as usize);
                button.put(&file, &rng.bytes(length));
            }
            5..=7 => {
                button.delete(&file);
            }
            8 => {
                if button.make_directory(&below).0.number == 0 {
                    directories.push(below);
                }
            }
            _ => {
                if button.remove_directory(&below).0.number == 0 {
                    directories.retain(|names| *names != below);
                }
            }
        }
    }
}

/// Buttons after a season, gathered and used for another: the copy has the same tree on no more pages, and serves as the button did.
#[test]
fn buttons_are_gathered_between_seasons() {
    let mut fewer = 0;
    run_seeds(0xA790_0000..0xA790_0000 + 150, |_, rng| {
        let page_length = [32, 32, 40, 64][rng.below(4)];
        let page_count = [16, 32, 60, 260][rng.below(4)];
        let local = may_be_local(page_count) && rng.chance(50);
        let mut button = Button::formatted(page_length, page_count, local);
        for _ in 0..3 {
            season(&mut button, rng);
            let copy = button.gathered();
            let (totals, owners) = copy.check();
            demand_order(&owners);
            demand_unused(&copy, &owners);
            demand_same_tree(&button, &copy);
            let before = button.check().0.used;
            assert!(totals.used <= before);
            fewer += u32::from(totals.used < before);
            button = copy;
        }
    });
    assert!(fewer > 100, "{fewer} copies with fewer pages in use");
}

/// The crowded button of the samples, after a season. In each week a file was put to the root and one to JIB, and LOG.7 was replaced as it grew; most
/// of these files were deleted later. So LOG.7 stands on pages 6, 14 and 25, the root has four pages, the last without entries, and only the last of
/// JIB's three pages has an entry. A reader of another maker has set a stamp before LOG.7.
fn crowded_button() -> Button {
    let mut button = Button::formatted(32, 32, true);
    let done = |told: (Answer, Vec<Record>)| assert_eq!(told.0, answer(0, 0));
    let log = path(&[], "LOG", 7);
    let days = "Monday 12, Tuesday 15, Wednesday 9, Thursday 11, Friday 14, Saturday 3";
    done(button.put(&path(&[], "DEMO", 12), b"TEST"));
    done(button.make_directory(b"JIB "));
    for week in 1..=9 {
        done(button.put(&path(&[], &format!("WK{week}"), 1), b"week of the boom"));
        done(button.put(&path(&["JIB"], &format!("PN{week}"), 1), b"pins"));
        done(button.put(&log, &days.as_bytes()[..7 * week + 7]));
    }
    for week in 1..=9 {
        if week < 9 {
            done(button.delete(&path(&["JIB"], &format!("PN{week}"), 1)));
        }
        if week != 2 && week != 8 {
            done(button.delete(&path(&[], &format!("WK{week}"), 1)));
        }
    }
    with_stamp(&button, &log)
}

/// The button with a stamp before the entry of a file in the root, on a page that has a slot for it.
fn with_stamp(button: &Button, path: &[u8]) -> Button {
    let mut pages = button.pages();
    let root = chain_of(&button.check().1, 1);
    for page in root {
        let (mut body, pointer) = (pages.body(page), pages.pointer(page));
        if let Some(place) = body.windows(5).position(|bytes| bytes == path) {
            body.splice(place..place, *b"\xCFWNER\x01\x02");
            pages.packet(page, &body, pointer);
        }
    }
    Button::from(&pages)
}

/// The samples of a crowded button and of its gathered copy. LOG.7 and its stamp begin the root's second page, since page 0 has only one slot left.
#[test]
fn crowded_sample_is_gathered() {
    let button = crowded_button();
    let (totals, owners) = button.check();
    assert_eq!((totals.used, chain_of(&owners, 6)), (14, vec![6, 14, 25]));
    assert_eq!(chain_of(&owners, 1), [0, 5, 15, 26]);
    assert_eq!(chain_of(&owners, 4), [2, 12, 23]);
    let (told, copy, owners) = button.gather();
    assert_eq!((told, copy.check().0.used), (answer(0, 0), 10));
    assert_eq!(chain_of(&owners, 1), [0, 1]);
    assert_eq!(chain_of(&owners, 6), [5, 6, 7]);
    demand_same_tree(&button, &copy);
    let folder = Path::new(env!("CARGO_MANIFEST_DIR")).join("../samples");
    for (name, made) in [("crowded", &button), ("crowded-gathered", &copy)] {
        let sample = fs::read(folder.join(name).with_extension("dump"));
        let made = dump(32, 32, 8, &made.image);
        assert!(sample.is_ok_and(|bytes| bytes == made), "sample {name}");
    }
}
