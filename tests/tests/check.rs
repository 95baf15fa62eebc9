//! Checks of small images, sound and damaged, and of images of many pages: five numbers and every owner byte.
//!
//! Programs: the library and the second program. Each call is made by both; every answer and every lent byte is compared.
//! The archive is made by `tools/build`.

use common::generators::{flip, misfit, owner_bytes, small_button};
use common::{both, Button, Seed};
use referee::builder::random::random_image;
use referee::rng::Rng;

#[test]
fn checks_are_the_second_programs() {
    let seed = 0x0114_C4EC;
    println!("seed {seed}");
    let mut met = [0_u32; 14];
    for case in 0..24_000 {
        let _seed = Seed(seed + case);
        let mut rng = Rng::new(seed + case);
        let mut button = small_button(&mut rng);
        let length = owner_bytes(button.page_count, &mut rng);
        if rng.chance(5) {
            misfit(&mut button, &mut rng);
        }
        met[both::check(&button, length, &mut rng).number as usize] += 1;
    }
    println!("answers 0 to 13: {met:?}");
    assert!(met.iter().all(|&times| times >= 20), "{met:?}");
}

#[test]
fn checks_of_many_pages_with_longer_tables_are_the_second_programs() {
    let seed = 0x0114_65535;
    println!("seed {seed}");
    for case in 0..12 {
        let _seed = Seed(seed + case);
        let mut rng = Rng::new(seed + case);
        let page_count = [257, 5_000, 65_534, 65_535][case as usize % 4];
        let built = random_image(32, page_count, &mut rng);
        let mut button = Button::from(&built);
        for length in [
            131_070, 262_136, 262_139, 262_140, 262_141, 262_144, 400_001,
        ] {
            both::check(&button, length, &mut rng);
        }
        flip(&mut button.image, &mut rng);
        both::check(&button, 262_200, &mut rng);
        button.page_count += 2;
        both::check(&button, 280_000, &mut rng);
    }
}

#[test]
fn check_of_an_empty_image_is_1() {
    let mut rng = Rng::new(1);
    for (page_length, page_count) in [(0, 0), (32, 2), (256, 65_535)] {
        let button = Button {
            page_length,
            page_count,
            image: Vec::new(),
        };
        for length in 0..10 {
            assert_eq!(both::check(&button, length, &mut rng).number, 1);
        }
    }
}
