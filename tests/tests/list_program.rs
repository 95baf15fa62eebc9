//! Generated dumps, sound, with faults and malformed: each byte that the program `list` prints is the second program's.
//!
//! Programs: the program `list`, started for each dump, and the second program. `tools/build` makes `list`.

use common::dumps::{compare, dump, faulty_dump, malformed_dump, sound_dump};
use common::{Button, Seed, Tally};
use referee::rng::Rng;

#[test]
fn sound_dumps_are_printed_as_the_second_program_prints_them() {
    let mut tally = Tally::default();
    for seed in 0x8000_0000..0x8000_0000 + 1_200 {
        let _seed = Seed(seed);
        let (label, dump) = sound_dump(&mut Rng::new(seed));
        tally.add(label);
        assert_eq!(compare(&dump, &mut tally), "accepted 0");
    }
    tally.print();
    let labels = [
        "sound image with stamps",
        "sound image at offset 8",
        "sound image at another offset",
    ];
    tally.demand(200, &labels);
}

#[test]
fn dumps_with_faults_are_printed_as_the_second_program_prints_them() {
    let mut tally = Tally::default();
    for seed in 0x8100_0000..0x8100_0000 + 1_800 {
        let _seed = Seed(seed);
        compare(&faulty_dump(seed, &mut Rng::new(seed)), &mut tally);
    }
    tally.print();
    tally.demand_numbers("refused", 40, 2..=13);
}

#[test]
fn malformed_dumps_are_printed_as_the_second_program_prints_them() {
    let mut tally = Tally::default();
    for seed in 0x8200_0000..0x8200_0000 + 1_400 {
        let _seed = Seed(seed);
        let (label, dump) = malformed_dump(seed, &mut Rng::new(seed));
        let answer = compare(&dump, &mut tally);
        tally.add(format!("{label}: {answer}"));
    }
    tally.print();
    let met = [
        "short header: refused 19",
        "any bytes: refused 19",
        "any bytes as the image: refused 2",
        "offset below 8: refused 19",
        "offset at the end: refused 1",
        "offset past the end: refused 19",
        "offset above 32,768: refused 19",
        "more than 32,768 bytes: refused 19",
        "sound image too long: refused 19",
        "just 32,768 bytes: accepted 0",
        "image cut short: refused 1",
        "bytes after the image: refused 1",
        "other numbers in the header: refused 1",
        "a bit of the header flipped: refused 1",
        "a bit of the header flipped: refused 19",
    ];
    tally.demand(10, &met);
}

/// A small dump cut at every length, with some bytes more, and with every offset up to past its end.
#[test]
fn every_length_and_offset_of_a_small_dump_has_its_answer() {
    let mut tally = Tally::default();
    let button = Button::formatted(32, 2, true);
    let mut whole = dump(32, 2, 8, &button.image);
    assert_eq!(compare(&whole, &mut tally), "accepted 0");
    for offset in 0..=whole.len() + 4 {
        let mut other = whole.clone();
        other[4..8].copy_from_slice(&(offset as u32).to_le_bytes());
        let expected = match offset {
            8 => "accepted 0",
            9..=72 => "refused 1",
            _ => "refused 19",
        };
        assert_eq!(compare(&other, &mut tally), expected, "offset {offset}");
    }
    whole.extend([0; 4]);
    for length in 0..=whole.len() {
        let expected = match length {
            72 => "accepted 0",
            0..=7 => "refused 19",
            _ => "refused 1",
        };
        let cut = &whole[..length];
        assert_eq!(compare(cut, &mut tally), expected, "length {length}");
    }
}
