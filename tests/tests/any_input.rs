//! Any bytes and numbers: every call answers, a refusal changes nothing, and the calls agree with each other.
//!
//! Programs: the library and the second program. Each call is made by both; every answer and every lent byte is compared.
//! The archive is made by `tools/build`.

use common::trials::random_copy_bytes;
use common::{agreed, answer, no_writes, Button, Seed};
use referee::builder::pages::Pages;
use referee::builder::random::random_packets;
use referee::rng::Rng;
use referee::{Answer, Mended, Writes};

/// A number for P or N that is often just inside or outside its limits.
fn random_number(rng: &mut Rng, limits: &[u32]) -> u32 {
    match rng.below(4) {
        0 => rng.next_u64() as u32,
        _ => limits[rng.below(limits.len())],
    }
}

/// A length that fits, or nearly, or not at all.
fn random_length(rng: &mut Rng, fitting: u64) -> usize {
    let fitting = fitting.min(100_000) as usize;
    match rng.below(6) {
        0 => rng.below(2_000),
        1 => (fitting + rng.below(3)).saturating_sub(1),
        _ => fitting,
    }
}

/// What all calls are called with.
struct Lent {
    page_length: u32,
    page_count: u32,
    image: Vec<u8>,
    table: Vec<u8>,
    path: Vec<u8>,
}

/// Any numbers and bytes.
fn random_lent(rng: &mut Rng) -> Lent {
    let page_length = random_number(rng, &[0, 31, 32, 33, 64, 256, 257]);
    let counts = [0, 1, 2, 16, 31, 32, 33, 256, 257, 65_535, 65_536];
    let page_count = random_number(rng, &counts);
    let fitting = u64::from(page_length) * u64::from(page_count);
    let image_length = random_length(rng, fitting);
    let table_length = random_length(rng, 4 * u64::from(page_count));
    let image = rng.bytes(image_length);
    let path_length = rng.below(50);
    Lent {
        page_length,
        page_count,
        image,
        table: vec![0x44; table_length],
        path: rng.bytes(path_length),
    }
}

impl Lent {
    /// Calls every function once.
    fn call_all(&mut self, rng: &mut Rng) {
        let (p, n) = (self.page_length, self.page_count);
        let totals = agreed::check(p, n, &self.image, &mut self.table);
        assert!(totals.number <= 13);
        let verdict = answer(totals.number, totals.page);
        self.call_queries(verdict, rng);
        let length_of_bytes = rng.below(3_000);
        let bytes = rng.bytes(length_of_bytes);
        self.call_edits(verdict, &bytes);
        self.call_careful(verdict, &bytes, rng);
        self.call_mend(verdict);
        self.call_gather(verdict, rng);
        self.call_format(rng);
    }

    /// Calls list and read: they refuse what the check refuses.
    fn call_queries(&mut self, verdict: Answer, rng: &mut Rng) {
        let (p, n, image) = (self.page_length, self.page_count, &self.image);
        let position = rng.next_u64() as u32 >> rng.below(32);
        let listing = agreed::list(p, n, image, &mut self.table, position);
        let mut out = vec![0; rng.below(300)];
        let length = agreed::read(p, n, image, &self.path, &mut out, &mut self.table);
        if verdict.number != 0 {
            assert_eq!(answer(listing.number, listing.page), verdict);
            assert_eq!(answer(length.number, length.page), verdict);
        }
    }

    /// Calls put and delete, and makes and removes a directory: they refuse what the check refuses.
    fn call_edits(&mut self, verdict: Answer, bytes: &[u8]) {
        let put = self.edit(
            |told: &Answer| told.number,
            |p, n, image, path, table| agreed::put(p, n, image, path, bytes, table),
        );
        let delete = self.edit(|told: &Answer| told.number, agreed::delete);
        let make = self.edit(|told: &Answer| told.number, agreed::make_directory);
        let remove = self.edit(|told: &Answer| told.number, agreed::remove_directory);
        if verdict.number != 0 {
            assert_eq!([put, delete, make, remove], [verdict; 4]);
        }
    }

    /// Calls careful put and careful delete: they refuse what the check refuses, without a write.
    fn call_careful(&mut self, verdict: Answer, bytes: &[u8], rng: &mut Rng) {
        let allowed = rng.next_u64() as u32 >> rng.below(32);
        let put = self.edit(
            |told: &Writes| told.number,
            |p, n, image, path, table| {
                agreed::careful_put(p, n, image, path, bytes, table, allowed)
            },
        );
        let delete = self.edit(
            |told: &Writes| told.number,
            |p, n, image, path, table| agreed::careful_delete(p, n, image, path, table, allowed),
        );
        if verdict.number != 0 {
            let refused = no_writes(verdict.number, verdict.page);
            assert_eq!((put, delete), (refused, refused));
        }
    }

    /// Calls mend: it refuses what the check refuses, but for 13.
    fn call_mend(&mut self, verdict: Answer) {
        let mended = self.edit(
            |told: &Mended| told.number,
            |p, n, image, _, table| agreed::mend(p, n, image, table),
        );
        assert!(mended.number <= 13);
        if verdict.number != 0 {
            let is_fault = answer(mended.number, mended.page) == verdict;
            assert!(is_fault || verdict.number == 13);
        }
    }

    /// Calls gather: it refuses what the check refuses, and any other length of the copy.
    fn call_gather(&mut self, verdict: Answer, rng: &mut Rng) {
        let (p, n, image) = (self.page_length, self.page_count, &self.image);
        let mut copy = vec![0x3A; random_copy_bytes(image.len(), rng)];
        let told = agreed::gather(p, n, image, &mut copy, &mut self.table);
        let is_other = copy.len() != image.len();
        assert_eq!(told, if is_other { answer(1, 0) } else { verdict });
    }

    /// Calls format.
    fn call_format(&mut self, rng: &mut Rng) {
        let local = rng.below(2) as u32;
        let format = self.edit(
            |told: &Answer| told.number,
            |p, n, image, _, table| agreed::format(p, n, image, table, local),
        );
        assert!([0, 1, 4].contains(&format.number));
    }

    /// Makes an edit of a copy of the image; a refusal changes nothing.
    fn edit<T>(
        &mut self,
        number: impl Fn(&T) -> u32,
        call: impl FnOnce(u32, u32, &mut [u8], &[u8], &mut [u8]) -> T,
    ) -> T {
        let (p, n) = (self.page_length, self.page_count);
        let mut image = self.image.clone();
        let told = call(p, n, &mut image, &self.path, &mut self.table);
        assert!(number(&told) == 0 || image == self.image);
        told
    }
}

#[test]
fn calls_with_any_arguments_answer_and_refusals_change_nothing() {
    for seed in 50_000..56_000 {
        let _seed = Seed(seed);
        let mut rng = Rng::new(seed);
        random_lent(&mut rng).call_all(&mut rng);
    }
}

/// The page and place of a bit's byte in the bitmap, by the control field and the pointers.
fn bitmap_byte(pages: &Pages, byte: usize) -> (usize, usize) {
    let n = pages.geometry.number_length();
    if pages.page(0)[2 + n] == 0x80 {
        return (0, 3 + n + byte);
    }
    let mut page = pages.geometry.number_at(&pages.page(0)[7 - n..]);
    let mut before = 0;
    while byte >= before + pages.body(page).len() {
        before += pages.body(page).len();
        page = pages.pointer(page);
    }
    (page, 1 + byte - before)
}

/// Marks and unmarks pages in the bitmap until it agrees with the chains, if nothing else is wrong.
fn repair_bitmap(button: &mut Button) {
    loop {
        let verdict = button.verdict();
        if verdict.number != 13 {
            return;
        }
        let mut pages = button.pages();
        let (page, place) = bitmap_byte(&pages, verdict.page as usize / 8);
        let byte = pages.page(page)[place] ^ 1 << (verdict.page % 8);
        pages.alter(page, place, &[byte]);
        button.image = pages.image;
    }
}

/// Demands that all calls agree on an image, and that an accepted one takes a file and gives it back.
fn use_image(button: &mut Button, rng: &mut Rng) -> u32 {
    repair_bitmap(button);
    let verdict = button.verdict();
    if verdict.number != 0 {
        button.refused_by_all(verdict.number, verdict.page);
        return verdict.number;
    }
    let path = [b'A' + rng.below(6) as u8, b' ', b' ', b' ', 1];
    let before = button.list_all().len();
    let existed = button.read(&path).0 == 0;
    if button.put(&path, b"put").0 == answer(0, 0) {
        assert_eq!(button.read(&path), (0, b"put".to_vec()));
        let after = before + usize::from(!existed);
        assert_eq!(button.list_all().len(), after);
        assert_eq!(button.delete(&path).0, answer(0, 0));
        assert_eq!(button.list_all().len(), after - 1);
    }
    let path = [b'A' + rng.below(6) as u8, b' ', b' ', b' '];
    let before = button.list_all().len();
    if button.make_directory(&path).0 == answer(0, 0) {
        assert_eq!(button.list_all().len(), before + 1);
        assert_eq!(button.make_directory(&path).0, answer(21, 0));
        assert_eq!(button.remove_directory(&path).0, answer(0, 0));
        assert_eq!(button.list_all().len(), before);
        assert_eq!(button.remove_directory(&path).0, answer(15, 0));
    }
    0
}

/// Images of sound packets at random, with one-byte and two-byte numbers.
#[test]
fn all_calls_agree_on_images_of_random_packets() {
    for (seeds, low, high) in [(60_000..90_000, 2, 32), (90_000..96_000, 257, 270)] {
        let mut met = [0_u32; 20];
        for seed in seeds {
            let _seed = Seed(seed);
            let mut rng = Rng::new(seed);
            let page_count = rng.between(low, high) as u32;
            let page_length = rng.between(32, 40) as u32;
            let mut button = Button {
                page_length,
                page_count,
                image: random_packets(page_length, page_count, &mut rng),
            };
            met[use_image(&mut button, &mut rng) as usize] += 1;
        }
        assert_eq!(met[2] + met[5] + met[13], 0);
        for number in [0, 3, 4, 6, 7, 8, 10, 11] {
            assert!(met[number] >= 5, "number {number}: {}", met[number]);
        }
    }
}
