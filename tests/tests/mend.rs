//! Mend on images with every kind of damage to the bitmap, and on images with another fault.
//!
//! Programs: the library and the second program. Each call is made by both; every answer and every lent byte is compared. Answer and image of each
//! mend are known by construction besides. The archive is made by `tools/build`.

use common::generators::{
    fault_case, large_image, roomy_plan, stamped_plan, two_faults_case, worn_plan,
};
use common::stops::{bitmap_places, differing_pages, with_flipped_bits};
use common::write_orders::Planned;
use common::{all_free, answer, mended, not_mended, records, run_seeds, Button, Tally, FREE};
use referee::builder::pages::Pages;
use referee::rng::Rng;
use referee::Mended;

/// An accepted image and what it holds.
struct Sound {
    button: Button,
    held: Planned,
    used: Vec<bool>,
}

impl Sound {
    /// The image of a plan.
    fn new(held: Planned) -> Sound {
        Sound {
            button: Button::from(&held.built),
            used: held.used(),
            held,
        }
    }

    /// A random image of up to so many pages.
    fn random(most_pages: usize, rng: &mut Rng) -> Sound {
        loop {
            let plan = match rng.below(4) {
                0 => worn_plan(rng),
                1 => stamped_plan(rng),
                _ => roomy_plan(most_pages, rng),
            };
            if plan.page_count as usize <= most_pages {
                return Sound::new(Planned::new(plan));
            }
        }
    }

    /// The number of the bitmap's bits.
    fn bits(&self) -> usize {
        8 * bitmap_places(&self.held).len()
    }

    /// Whether a bit that is the other way marks a page that no chain has.
    fn is_extra_mark(&self, bit: usize) -> bool {
        self.used.get(bit) == Some(&false)
    }

    /// What a mend must answer with these bits the other way, rising.
    fn expected(&self, bits: &[usize]) -> Mended {
        match bits.first() {
            Some(&lowest) if !bits.iter().all(|&bit| self.is_extra_mark(bit)) => {
                not_mended(13, lowest as u32)
            }
            _ => mended(bits.len() as u32),
        }
    }

    /// Mends the image with these bits the other way, rising: it is as before them, or stays as it is.
    fn mend_with(&self, bits: &[usize], tally: &mut Tally) {
        let damaged = with_flipped_bits(&self.button, &self.held, bits);
        let verdict = match bits.first() {
            Some(&lowest) => answer(13, lowest as u32),
            None => answer(0, 0),
        };
        assert_eq!(damaged.verdict(), verdict, "bits {bits:?}");
        let mut button = damaged.clone();
        let (told, owners) = button.mend();
        assert_eq!(told, self.expected(bits), "bits {bits:?}");
        if told.number == 0 {
            assert_eq!(button, self.button, "bits {bits:?}");
            assert_eq!(owners, records(&self.held.built.owners));
            tally.add("mended");
        } else {
            assert_eq!(button, damaged, "bits {bits:?}");
            assert!(all_free(&owners));
            tally.add("not mended");
        }
    }
}

/// Counts what the bitmap is like.
fn count_kind(sound: &Sound, tally: &mut Tally) {
    let pages = sound.held.bitmap_pages();
    tally.add(match (sound.held.built.local_bitmap, pages.len()) {
        (true, _) => "local bitmap",
        (false, 1) => "bitmap file on one page",
        (false, _) => "bitmap file on several pages",
    });
    if sound.bits() > sound.used.len() {
        tally.add("bits from N up");
    }
    if pages.windows(2).any(|two| two[1].0 < two[0].0) {
        tally.add("scattered bitmap file");
    }
    if pages.iter().any(|(_, length)| *length == 0) {
        tally.add("empty packet in the bitmap file");
    }
    if sound
        .held
        .built
        .entries
        .iter()
        .any(|entry| entry.stamps > 0)
    {
        tally.add(match sound.held.built.local_bitmap {
            true => "stamps and a local bitmap",
            false => "stamps and a bitmap file",
        });
    }
}

/// The labels of all kinds of bitmaps.
const KINDS: [&str; 8] = [
    "local bitmap",
    "bitmap file on one page",
    "bitmap file on several pages",
    "bits from N up",
    "scattered bitmap file",
    "empty packet in the bitmap file",
    "stamps and a local bitmap",
    "stamps and a bitmap file",
];

/// Each single bit of the bitmap the other way.
#[test]
fn each_single_wrong_bit_is_cleared_or_refused() {
    let mut tally = Tally::default();
    run_seeds(0xE400_0000..0xE400_0000 + 150, |_, rng| {
        let sound = Sound::random(300, rng);
        count_kind(&sound, &mut tally);
        for bit in 0..sound.bits() {
            sound.mend_with(&[bit], &mut tally);
        }
    });
    tally.print();
    tally.demand(10, &KINDS);
    tally.demand(1_000, &["mended", "not mended"]);
}

/// Each pair of bits of the bitmap the other way.
#[test]
fn each_pair_of_wrong_bits_is_cleared_or_refused() {
    let mut tally = Tally::default();
    run_seeds(0xE500_0000..0xE500_0000 + 40, |_, rng| {
        let sound = Sound::random(40, rng);
        count_kind(&sound, &mut tally);
        for low in 0..sound.bits() {
            for high in low + 1..sound.bits() {
                sound.mend_with(&[low, high], &mut tally);
            }
        }
    });
    tally.print();
    tally.demand(3, &KINDS);
    tally.demand(1_000, &["mended", "not mended"]);
}

/// Some of the bits of a list.
fn some_bits(bits: impl Iterator<Item = usize>, rng: &mut Rng) -> Vec<usize> {
    let percent = [1, 10, 50, 100][rng.below(4)];
    bits.filter(|_| rng.chance(percent)).collect()
}

/// None, some or all of the marks that are not there, of those that are, and of the bits from N up.
#[test]
fn many_wrong_bits_are_cleared_or_refused() {
    let mut tally = Tally::default();
    run_seeds(0xE600_0000..0xE600_0000 + 2_500, |seed, rng| {
        let sound = Sound::random(1_000, rng);
        count_kind(&sound, &mut tally);
        let every = 0..sound.bits();
        let is_extra = |bit: &usize| sound.is_extra_mark(*bit);
        let is_past = |bit: &usize| *bit >= sound.used.len();
        let is_used = |bit: &usize| !is_extra(bit) && !is_past(bit);
        let mut bits = some_bits(every.clone().filter(is_extra), rng);
        match seed % 5 {
            0 => bits.extend(some_bits(every.filter(is_used), rng)),
            1 => bits.extend(some_bits(every.filter(is_past), rng)),
            2 => bits = every.filter(|bit| !is_used(bit)).collect(),
            _ => {}
        }
        bits.sort_unstable();
        sound.mend_with(&bits, &mut tally);
    });
    tally.print();
    tally.demand(30, &KINDS);
    tally.demand(300, &["mended", "not mended"]);
}

/// An accepted image stays as it is, whatever unused bytes hold.
#[test]
fn accepted_image_stays() {
    let mut tally = Tally::default();
    run_seeds(0xE700_0000..0xE700_0000 + 300, |_, rng| {
        Sound::random(1_000, rng).mend_with(&[], &mut tally);
    });
    tally.demand(300, &["mended"]);
}

/// Any other fault is met before the bitmap's: mend tells it and clears nothing, also where marks are wrong too.
#[test]
fn another_fault_is_told_and_nothing_is_cleared() {
    let mut tally = Tally::default();
    run_seeds(0xE800_0000..0xE800_0000 + 1_500, |seed, rng| {
        let number = 2 + (seed % 11) as u32;
        let case = match seed % 3 {
            0 => two_faults_case([number, 13], rng),
            _ => fault_case(number, rng),
        };
        let verdict = case.button.verdict();
        let mut button = case.button.clone();
        let (told, owners) = button.mend();
        tally.add(format!("mend {}", told.number));
        if verdict.number == 0 || verdict.number == 13 {
            return;
        }
        assert_eq!(told, not_mended(verdict.number, verdict.page));
        assert_eq!(button, case.button);
        assert!(all_free(&owners));
    });
    tally.print();
    tally.demand_numbers("mend", 20, 2..=12);
}

/// Images of tens of thousands of pages.
#[test]
fn large_images_are_mended() {
    let mut tally = Tally::default();
    run_seeds(0xE900_0000..0xE900_0000 + 4, |seed, rng| {
        let built = large_image(rng);
        let button = Button::from(&built);
        let owners = records(&built.owners);
        let unused = (0..owners.len()).filter(|&page| owners[page] == FREE);
        let extra: Vec<usize> = unused.filter(|_| rng.chance(30)).collect();
        let places = file_places(&button);
        let mut pages = button.pages();
        for page in &extra {
            let (holder, place) = places[page / 8];
            let byte = pages.page(holder)[place] | 1 << (page % 8);
            pages.alter(holder, place, &[byte]);
        }
        let mut damaged = Button::from(&pages);
        assert_eq!(damaged.mend().0, mended(extra.len() as u32), "{seed}");
        assert!(damaged == button, "{seed}");
        tally.add_times("marks", extra.len() as u32);
    });
    tally.print();
    tally.demand(1_000, &["marks"]);
}

/// The page and place of each byte of a bitmap file, by the pointers; two-byte page numbers.
fn file_places(button: &Button) -> Vec<(usize, usize)> {
    let pages = button.pages();
    let mut page = pages.geometry.number_at(&pages.page(0)[5..]);
    let mut places = Vec::new();
    while page != 0 {
        let bytes = 1..=pages.body(page).len();
        places.extend(bytes.map(|place| (page, place)));
        page = pages.pointer(page);
    }
    places
}

/// Mend's own pages may be written one by one, in chain order: each image between is accepted or refused with 13, and the next mend ends it.
#[test]
fn mend_may_be_stopped_between_its_pages() {
    let mut tally = Tally::default();
    run_seeds(0xEA00_0000..0xEA00_0000 + 1_200, |_, rng| {
        let sound = Sound::random(1_000, rng);
        let every = 0..sound.used.len();
        let extra = some_bits(every.filter(|&bit| sound.is_extra_mark(bit)), rng);
        let mut button = with_flipped_bits(&sound.button, &sound.held, &extra);
        let mut whole = button.clone();
        assert_eq!(whole.mend().0, mended(extra.len() as u32));
        let written = differing_pages(&button, &whole);
        for (page, _) in sound.held.bitmap_pages() {
            if !written.contains(&page) {
                continue;
            }
            let length = button.page_length as usize;
            let range = page * length..(page + 1) * length;
            button.image[range.clone()].copy_from_slice(&whole.image[range]);
            assert!([0, 13].contains(&button.verdict().number));
            let mut next = button.clone();
            assert_eq!(next.mend().0.number, 0);
            assert_eq!(next, whole);
            tally.add("stops");
        }
        if written.len() > 1 {
            tally.add("several pages to write");
        }
        assert_eq!(button, whole);
    });
    tally.print();
    tally.demand(50, &["several pages to write"]);
    tally.demand(300, &["stops"]);
}

/// A root alone, with these four bitmap bytes; pages 1 and 3 hold nothing.
fn with_bits(bits: [u8; 4]) -> Button {
    let mut pages = Pages::new(32, 16);
    let control = [&[0xAA, 0, 0x80][..], &bits].concat();
    Button::from(pages.packet(0, &control, 0))
}

/// Both kinds of difference: nothing is cleared, and the page is the lowest bit that differs, which may be a mark without an owner.
#[test]
fn the_page_told_is_the_checks() {
    for (bits, told) in [
        ([0x01, 0, 0, 0], mended(0)),
        ([0x03, 0, 0, 0], mended(1)),
        ([0xFF, 0xFF, 0, 0], mended(15)),
        ([0x01, 0x80, 0, 0], mended(1)),
        ([0x00, 0, 0, 0], not_mended(13, 0)),
        ([0x02, 0, 0, 0], not_mended(13, 0)),
        ([0x01, 0, 1, 0], not_mended(13, 16)),
        ([0x01, 0, 0, 0x80], not_mended(13, 31)),
        ([0x09, 0, 0, 0x80], not_mended(13, 3)),
        ([0xFF, 0xFF, 0xFF, 0xFF], not_mended(13, 1)),
    ] {
        let mut button = with_bits(bits);
        assert_eq!(button.mend().0, told, "{bits:?}");
        let left = match told.number {
            0 => with_bits([1, 0, 0, 0]),
            _ => with_bits(bits),
        };
        assert_eq!(button, left, "{bits:?}");
    }
}

/// With 32 pages every bit of the four bytes is a page's.
#[test]
fn thirty_two_local_pages_have_no_bit_past_the_last() {
    let sound = Button::formatted(32, 32, true);
    let mut pages = sound.pages();
    let mut button = Button::from(pages.alter(0, 4, &[0xFF, 0xFF, 0xFF, 0xFF]));
    assert_eq!(button.verdict(), answer(13, 1));
    assert_eq!(button.mend().0, mended(31));
    assert_eq!(button, sound);
}
