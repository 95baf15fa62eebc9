//! Texts of `list` that are known: those of document 01, of images made by hand and of generated ones.
//!
//! Programs: the program `list`, started for each dump, and the second program, which must make the same text. `tools/build` makes `list`.
//! The images are formatted and put to by the library and the second program alike.

use common::dumps::{dump, text};
use common::generators::stamped_plan;
use common::{answer, run_seeds, Button};
use referee::builder::pages::Pages;
use referee::builder::plan::Built;
use referee::builder::random::random_image;
use referee::rng::Rng;

/// Case 3 of document 01.
fn case_3() -> Button {
    let mut button = Button::formatted(32, 16, true);
    assert_eq!(button.put(b"DEMO\x0C", b"TEST").0, answer(0, 0));
    button
}

const CASE_3_TEXT: &str = "page 32 pages 16 used 2 files 1 directories 0\n0 DEMO 012 - 1 1 4\n";

#[test]
fn text_of_case_3_is_document_01s() {
    assert_eq!(text(&dump(32, 16, 8, &case_3().image)), CASE_3_TEXT);
}

#[test]
fn text_is_the_same_at_every_offset() {
    for offset in [9, 10, 100, 32_767, 32_768] {
        assert_eq!(text(&dump(32, 16, offset, &case_3().image)), CASE_3_TEXT);
    }
}

#[test]
fn empty_root_has_the_line_of_totals_alone() {
    let button = Button::formatted(64, 100, false);
    assert_eq!(
        text(&dump(64, 100, 8, &button.image)),
        "page 64 pages 100 used 2 files 0 directories 0\n"
    );
}

#[test]
fn lines_show_levels_names_extensions_and_attributes() {
    let mut pages = Pages::new(32, 16);
    let mut root = pages.local_control(&[0, 1, 2, 3, 4]);
    root.extend(pages.entry("A~", 0x80 | 99, 1, 1));
    root.extend(pages.entry("D", 0xFF, 2, 0));
    let mut sub = pages.sub_control("ROOT", 0);
    sub.extend(pages.entry("`{}", 0, 3, 1));
    sub.extend(pages.entry("E", 0x7F, 4, 0));
    let deeper = pages.sub_control("D", 2);
    pages.packet(0, &root, 0).packet(1, b"abc", 0);
    pages.packet(2, &sub, 0).packet(3, b"", 0);
    pages.packet(4, &deeper, 0);
    assert_eq!(
        text(&dump(32, 16, 8, &pages.image)),
        "page 32 pages 16 used 5 files 2 directories 2\n\
         0 A~ 099 r 1 1 3\n\
         0 D 127 h 2 0 0\n\
         1 `{} 000 - 3 1 0\n\
         1 E 127 - 4 0 0\n"
    );
}

#[test]
fn refusal_of_the_image_is_one_line() {
    let mut image = case_3().image;
    image[32] = 0xFF;
    assert_eq!(text(&dump(32, 16, 8, &image)), "refused 2 page 1\n");
    let image = case_3().image;
    assert_eq!(text(&dump(32, 17, 8, &image)), "refused 1 page 0\n");
    assert_eq!(text(&dump(31, 16, 8, &image)), "refused 1 page 0\n");
    assert_eq!(text(&dump(0, 0, 8, b"")), "refused 1 page 0\n");
    assert_eq!(text(&dump(65_535, 65_535, 8, b"")), "refused 1 page 0\n");
    let mut pages = Pages::new(32, 16);
    pages.packet(0, &[0xAA, 0, 0x80, 1, 0, 0, 0x80], 0);
    assert_eq!(text(&dump(32, 16, 8, &pages.image)), "refused 13 page 31\n");
}

#[test]
fn short_header_is_19() {
    let whole = dump(32, 16, 8, &case_3().image);
    for length in 0..8 {
        assert_eq!(text(&whole[..length]), "refused 19 page 0\n");
    }
}

/// An offset equal to the dump's length leaves an empty image, which is the check's 1.
#[test]
fn offset_at_the_end_is_1_and_past_it_19() {
    let header = [0x20, 0x00, 0x10, 0x00, 0x08, 0x00, 0x00, 0x00];
    assert_eq!(text(&header), "refused 1 page 0\n");
    let header = [0x20, 0x00, 0x10, 0x00, 0x09, 0x00, 0x00, 0x00];
    assert_eq!(text(&header), "refused 19 page 0\n");
}

#[test]
fn offset_below_8_or_above_32768_or_past_the_end_is_19() {
    let image = case_3().image;
    for offset in [0, 1, 7, 32_769, 65_544, 1 << 24, u32::MAX] {
        assert_eq!(text(&dump(32, 16, offset, &image)), "refused 19 page 0\n");
    }
    let mut short = dump(32, 16, 600, &[]);
    short.truncate(599);
    assert_eq!(text(&short), "refused 19 page 0\n");
}

#[test]
fn more_than_32768_bytes_after_the_offset_are_19() {
    let button = Button::formatted(256, 128, false);
    assert_eq!(button.image.len(), 32_768);
    let expected = "page 256 pages 128 used 2 files 0 directories 0\n";
    assert_eq!(text(&dump(256, 128, 8, &button.image)), expected);
    assert_eq!(text(&dump(256, 128, 32_768, &button.image)), expected);
    let mut longer = button.image.clone();
    longer.push(0);
    for offset in [8, 32_768] {
        let refused = text(&dump(256, 128, offset, &longer));
        assert_eq!(refused, "refused 19 page 0\n");
    }
    let one_more = vec![0; 32_769];
    assert_eq!(text(&dump(32, 16, 8, &one_more)), "refused 19 page 0\n");
    let just = vec![0; 32_768];
    assert_eq!(text(&dump(32, 16, 8, &just)), "refused 1 page 0\n");
}

/// Stamps have no line and are counted nowhere.
#[test]
fn stamps_have_no_line() {
    let mut pages = Pages::new(32, 16);
    let stamp = |first: u8| vec![first, b'N', b'E', b'R', 12, 1, 1];
    let mut root = pages.local_control(&[0, 1, 2, 3]);
    root.extend([stamp(0xCF), stamp(0xFF)].concat());
    root.extend(pages.entry("D", 0x7F, 1, 0));
    let mut sub = pages.sub_control("ROOT", 0);
    sub.extend(pages.entry("A", 0x81, 2, 1));
    sub.extend(stamp(0x80));
    sub.extend(pages.entry("B", 2, 3, 1));
    pages.packet(0, &root, 0).packet(1, &sub, 0);
    pages.packet(2, b"abc", 0).packet(3, b"", 0);
    assert_eq!(
        text(&dump(32, 16, 8, &pages.image)),
        "page 32 pages 16 used 4 files 2 directories 1\n\
         0 D 127 - 1 0 0\n\
         1 A 001 r 2 1 3\n\
         1 B 002 - 3 1 0\n"
    );
    // The stamp between A and B in the place of B.
    let mut pages = Pages::of(32, 16, &pages.image);
    let body = pages.body(1);
    pages.packet(1, &body[..21], 0);
    assert_eq!(text(&dump(32, 16, 8, &pages.image)), "refused 10 page 1\n");
}

/// The text that an image's plan gives.
fn planned_text(built: &Built) -> String {
    let totals = built.totals;
    let mut text = format!(
        "page {} pages {} used {} files {} directories {}\n",
        built.page_length, built.page_count, totals.used, totals.files, totals.directories
    );
    for entry in &built.entries {
        let listing = entry.listing;
        let name = String::from_utf8(listing.name.to_le_bytes().to_vec()).expect("ASCII");
        let attribute = ["-", if listing.extension == 127 { "h" } else { "r" }];
        text += &format!(
            "{} {} {:03} {} {} {} {}\n",
            listing.level,
            name.replace(' ', ""),
            listing.extension,
            attribute[listing.attribute as usize],
            listing.start,
            listing.pages,
            listing.length
        );
    }
    text
}

/// The dump of an image.
fn dump_of(built: &Built) -> Vec<u8> {
    let (page_length, page_count) = (built.page_length as u16, built.page_count as u16);
    dump(page_length, page_count, 8, &built.image)
}

/// The lines agree with the plan that the image was built from.
#[test]
fn lines_of_generated_images_are_as_planned() {
    let mut rng = Rng::new(0x11);
    for round in 0..300 {
        let page_length = rng.between(32, 256) as u32;
        let page_count = rng.between(2, 32_768 / page_length as usize) as u32;
        let built = random_image(page_length, page_count, &mut rng);
        assert_eq!(
            text(&dump_of(&built)),
            planned_text(&built),
            "round {round}"
        );
    }
}

/// The lines of images with many stamps are those of the plain entries.
#[test]
fn lines_of_images_with_stamps_are_as_planned() {
    let mut stamps = 0;
    run_seeds(0x1_1000..0x1_1000 + 300, |_, rng| {
        let built = stamped_plan(rng).build();
        if built.image.len() <= 32_768 {
            assert_eq!(text(&dump_of(&built)), planned_text(&built));
            stamps += built
                .entries
                .iter()
                .map(|entry| entry.stamps)
                .sum::<usize>();
        }
    });
    assert!(stamps > 1_000, "{stamps} stamps");
}

/// Any bytes give one line of refusal or the lines of an accepted image.
#[test]
fn any_bytes_give_a_refusal_or_lines() {
    let mut rng = Rng::new(0x12);
    for _ in 0..2_000 {
        let length = rng.below(600);
        let mut bytes = rng.bytes(length);
        if rng.chance(70) {
            for (place, byte) in [32, 0, 16, 0, 8, 0, 0, 0].into_iter().enumerate() {
                if let Some(slot) = bytes.get_mut(place) {
                    *slot = byte;
                }
            }
        }
        let text = text(&bytes);
        assert!(text.ends_with('\n'));
        assert!(text.starts_with("refused ") || text.starts_with("page "));
    }
}
