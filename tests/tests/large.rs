//! The largest images.
//!
//! Programs: the library and the second program. Each call is made by both; every answer and every lent byte is compared.
//! The archive is made by `tools/build`.

use common::generators::largest_image;
use common::{answer, both, mended, no_writes, records, writes, Button, Seed};
use referee::builder::plan::Built;
use referee::rng::Rng;

/// The path of the file that takes all free pages.
const ALL: &[u8] = b"ALL \x00";

/// Demands the totals and owners that the plan gives.
fn counted_and_owned(built: &Built) {
    let (totals, owners) = Button::from(built).check();
    assert_eq!(totals, built.totals);
    assert_eq!(owners, records(&built.owners));
}

#[test]
fn fifty_thousand_entries_in_one_directory_are_counted_and_owned() {
    let _seed = Seed(71);
    let built = largest_image(256, 50_000, 1, 0, 71);
    assert_eq!(built.totals.files, 50_000);
    counted_and_owned(&built);
}

/// As many one-page files as fit: the highest owner number there is.
#[test]
fn every_page_in_use_is_counted_and_owned_and_a_put_is_17() {
    let _seed = Seed(72);
    let built = largest_image(256, 65_535, 1, 0, 72);
    assert_eq!(built.totals.used, 65_535);
    counted_and_owned(&built);
    let mut button = Button::from(&built);
    let last = built.entries.len() as u32 - 1;
    let entry = &built.entries[last as usize];
    assert_eq!(button.list(last).0, entry.listing);
    let told = both::put(&mut button, 262_140, b"NEW \x01", b"", &mut Rng::new(72));
    assert_eq!(told, answer(17, 0));
}

#[test]
fn long_files_are_counted_and_owned() {
    let _seed = Seed(73);
    let built = largest_image(256, 40, 6_000, 0, 73);
    assert!(built.totals.used > 60_000);
    counted_and_owned(&built);
}

/// One file over all free pages, and its replacement.
#[test]
fn one_file_takes_all_free_pages_and_is_replaced() {
    let mut button = Button::formatted(256, 65_535, false);
    let free = 65_535 - button.check().0.used as usize;
    let bytes = vec![0xA6; 251 * free + 1];
    assert_eq!(button.put(ALL, &bytes).0, answer(17, 0));
    let most = &bytes[..251 * free];
    assert_eq!(button.put(ALL, most).0, answer(0, 0));
    assert_eq!(button.list(0).0.pages as usize, free);
    assert_eq!(button.put(ALL, most).0, answer(0, 0));
    assert_eq!(button.check().0.used, 65_535);
    assert_eq!(button.delete(ALL).0, answer(0, 0));
}

/// The image after a careful put with so many writes allowed, of so many in all, and a mend; and the number of marks that the mend cleared.
fn stopped_and_mended(before: &Button, bytes: &[u8], allowed: u32, total: u32) -> (Button, u32) {
    let mut button = before.clone();
    let told = button.careful_put(ALL, bytes, allowed).0;
    assert_eq!(told, writes(allowed.min(total), allowed < total));
    let told = button.mend().0;
    assert_eq!(told, mended(told.cleared));
    (button, told.cleared)
}

/// Demands a file's bytes, or 15 if there is none.
fn demand_file(button: &Button, path: &[u8], bytes: Option<&[u8]>) {
    let (number, read) = button.read(path);
    assert_eq!(number, if bytes.is_some() { 0 } else { 15 });
    assert!(read == bytes.unwrap_or(&[]), "bytes of {path:?}");
}

/// One file over all free pages, put carefully: 33 bitmap pages mark, then come the file's pages and the root. Once mended there is no file before the
/// last write, and the whole one after it.
#[test]
fn careful_put_over_all_free_pages_is_stopped_and_mended() {
    let formatted = Button::formatted(256, 65_535, false);
    let free = 65_535 - formatted.check().0.used;
    let bytes = Rng::new(74).bytes(251 * free as usize + 1);
    let most = &bytes[..251 * free as usize];
    let total = 33 + free + 1;
    for (allowed, cleared) in [
        (0, 0),
        // The first bitmap page has the bits of 8 * 251 pages, 34 of them in use before.
        (1, 8 * 251 - 34),
        (33, free),
        (total - 1, free),
        (total, 0),
    ] {
        let (button, told) = stopped_and_mended(&formatted, most, allowed, total);
        assert_eq!(told, cleared, "{allowed} allowed");
        demand_file(&button, ALL, (allowed == total).then_some(most));
        let pages = if allowed == total { free } else { 0 };
        assert_eq!(button.list(0).0.pages, pages);
    }
    let mut button = formatted;
    assert_eq!(button.careful_put(ALL, &bytes, 9).0, no_writes(17, 0));
}

/// One file over all free pages instead of one on two pages, beside another: the root's write makes it visible, then the first bitmap page releases.
/// Once mended the file is as before up to the root's write and as new from it on, and the other one is as before.
#[test]
fn careful_replacement_over_all_free_pages_is_stopped_and_mended() {
    let mut rng = Rng::new(75);
    let (old, other) = (rng.bytes(251 + 1), rng.bytes(3 * 251));
    let mut before = Button::formatted(256, 65_535, false);
    assert_eq!(before.put(ALL, &old).0, answer(0, 0));
    assert_eq!(before.put(b"OTHR\x07", &other).0, answer(0, 0));
    let free = 65_535 - before.check().0.used;
    let new = rng.bytes(251 * free as usize);
    let visible = 33 + free;
    for (allowed, cleared, held) in [
        (1, 8 * 251 - 34 - 5, &old),
        (33, free, &old),
        (visible, free, &old),
        (visible + 1, 2, &new),
        (visible + 2, 0, &new),
    ] {
        let (button, told) = stopped_and_mended(&before, &new, allowed, visible + 2);
        assert_eq!(told, cleared, "{allowed} allowed");
        demand_file(&button, ALL, Some(held));
        demand_file(&button, b"OTHR\x07", Some(&other));
    }
}
