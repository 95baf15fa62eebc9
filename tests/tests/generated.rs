//! Random images whose answers are known by construction, sound and with one fault, and random changes of them.
//!
//! Programs: the library and the second program. Each call is made by both; every answer and every lent byte is compared.
//! The archive is made by `tools/build`.

use common::generators::{deep_image, random_sizes};
use common::{answer, records, Button, Seed, FREE};
use referee::builder::fault::{with_fault, with_random_changes};
use referee::builder::plan::{Built, ChainOf};
use referee::builder::random::random_image;
use referee::rng::Rng;

/// Demands the answers that the plan gives from check, list and read.
fn agrees(built: &Built, rng: &mut Rng) {
    let button = Button::from(built);
    let (totals, owners) = button.check();
    assert_eq!(totals, built.totals);
    assert_eq!(owners, records(&built.owners));
    let all = built.entries.len() <= 40;
    for (position, entry) in built.entries.iter().enumerate() {
        if !all && !rng.chance(2_000 / built.entries.len()) {
            continue;
        }
        let (listing, owners) = button.list(position as u32);
        assert_eq!(listing, entry.listing);
        assert_eq!(owners, records(&built.owners));
        if built.chains[entry.chain].of == ChainOf::File {
            assert_eq!(button.read(&entry.path), (0, entry.bytes.clone()));
        }
    }
    let past = built.entries.len() as u32;
    assert_eq!(button.list(past).0.number, 15);
}

#[test]
fn sound_images_are_checked_listed_and_read_as_planned() {
    for seed in 1_000..2_500 {
        let _seed = Seed(seed);
        let mut rng = Rng::new(seed);
        let (page_length, page_count) = random_sizes(&mut rng, 600);
        let built = random_image(page_length, page_count, &mut rng);
        agrees(&built, &mut rng);
    }
}

#[test]
fn sound_images_of_many_pages_are_checked_listed_and_read_as_planned() {
    for seed in 2_500..2_512 {
        let _seed = Seed(seed);
        let mut rng = Rng::new(seed);
        let page_count = [1_024, 5_000, 20_000, 65_535][seed as usize % 4];
        let page_length = [32, 64, 128, 256][rng.below(4)];
        let built = random_image(page_length, page_count, &mut rng);
        agrees(&built, &mut rng);
    }
}

/// Every number from 2 to 13 is made, told by every call, and leaves a table of zeros.
#[test]
fn one_fault_of_each_number_is_told_with_its_page() {
    let mut made = [0_u32; 14];
    for seed in 3_000..4_500 {
        let _seed = Seed(seed);
        let mut rng = Rng::new(seed);
        let (page_length, page_count) = random_sizes(&mut rng, 400);
        let built = random_image(page_length, page_count, &mut rng);
        for number in 2..=13 {
            let Some((image, expected)) = with_fault(&built, number, &mut rng) else {
                continue;
            };
            made[number as usize] += 1;
            let button = Button {
                image,
                ..Button::from(&built)
            };
            assert_eq!(button.verdict(), expected, "number {number}");
            if rng.chance(10) {
                button.refused_by_all(expected.number, expected.page);
            }
        }
    }
    for (number, &count) in made.iter().enumerate().skip(2) {
        assert!(count >= 40, "number {number} was made {count} times");
    }
}

#[test]
fn directory_nested_too_deep_is_told_with_its_page() {
    let mut made = 0;
    for seed in 4_500..4_800 {
        let _seed = Seed(seed);
        let mut rng = Rng::new(seed);
        let built = deep_image(&mut rng);
        if let Some((image, expected)) = with_fault(&built, 12, &mut rng) {
            let button = Button {
                image,
                ..Button::from(&built)
            };
            assert_eq!(button.verdict(), expected);
            made += 1;
        }
    }
    assert!(made > 100, "made {made} times");
}

/// Of several broken pages the one met first is told.
#[test]
fn first_of_several_broken_pages_is_told() {
    for seed in 5_000..5_400 {
        let _seed = Seed(seed);
        let mut rng = Rng::new(seed);
        let (page_length, page_count) = random_sizes(&mut rng, 400);
        let built = random_image(page_length, page_count, &mut rng);
        // Page 0 is met before the bitmap file, though its chain is the root's.
        let mut order = vec![0];
        let pages = built.chains.iter().flat_map(|chain| chain.pages.clone());
        order.extend(pages.filter(|&page| page != 0));
        let mut pages = Button::from(&built).pages();
        let mut broken: Vec<usize> = (0..order.len()).collect();
        rng.shuffle(&mut broken);
        broken.truncate(rng.between(1, 4));
        for &place in &broken {
            let bytes = pages.page_mut(order[place]);
            bytes[1 + rng.below(usize::from(bytes[0]))] ^= 1 << rng.below(8);
        }
        let first = broken.iter().min().map(|&place| order[place] as u32);
        let verdict = Button::from(&pages).verdict();
        assert_eq!((verdict.number, Some(verdict.page)), (2, first));
    }
}

/// Altered packets with right checks: all calls give one answer, and an accepted image counts right.
#[test]
fn all_calls_agree_on_altered_images() {
    let mut met = [0_u32; 14];
    for seed in 6_000..16_000 {
        let _seed = Seed(seed);
        let mut rng = Rng::new(seed);
        let (page_length, page_count) = random_sizes(&mut rng, 60);
        let built = random_image(page_length, page_count, &mut rng);
        let button = Button {
            image: with_random_changes(&built, &mut rng),
            ..Button::from(&built)
        };
        let verdict = button.verdict();
        met[verdict.number as usize] += 1;
        if verdict != answer(0, 0) {
            button.refused_by_all(verdict.number, verdict.page);
            continue;
        }
        let (totals, owners) = button.check();
        let used = owners.iter().filter(|&&record| record != FREE).count();
        assert_eq!(totals.used as usize, used);
        let highest = owners.iter().map(|record| record.0).max().unwrap_or(0);
        let entries = totals.files + totals.directories;
        assert!(entries == 0 || u32::from(highest) == 2 + entries);
    }
    for number in [0, 2, 3, 4, 5, 6, 7, 8, 9, 10, 11, 13] {
        assert!(met[number] > 0, "number {number} was never met");
    }
}
