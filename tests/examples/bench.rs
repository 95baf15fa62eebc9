//! Times of the library over those of the second program, for the same images in one run:
//!
//!     CARGO_TARGET_DIR=target/cargo cargo run --release --offline --manifest-path tests/Cargo.toml --example bench
//!
//! The archive is made by `tools/build`.

use std::fmt::Debug;
use std::hint::black_box;
use std::time::{Duration, Instant};

use common::{library, table_bytes};
use referee::builder::plan::{
    BitmapPlan, Built, Chain, DirectoryPlan, FilePlan, Fill, ImagePlan, Item,
};
use referee::builder::random::{random_plan, Shape};
use referee::geometry::Geometry;
use referee::rng::Rng;

/// The timed rounds; a time is their median.
const ROUNDS: usize = 15;

/// The time of a round, about; a round of a short call has many calls.
const ROUND_TIME: Duration = Duration::from_millis(4);

/// The time for which each program is called before it is timed.
const WARM_TIME: Duration = Duration::from_millis(30);

/// What an image is full of.
#[derive(Clone, Copy)]
enum Full {
    /// One-page files, all in the root.
    Files,
    /// Files of sixteen pages, all in the root.
    LongFiles,
    /// Directories of one page in the root, each full of one-page files.
    Directories,
}

/// An image and the buffers of both programs.
struct Bench {
    built: Built,
    what: String,
    owners: Vec<u8>,
    second_owners: Vec<u8>,
}

/// The times of one call.
struct Times {
    library: Duration,
    second: Duration,
}

/// A name of four digits or letters.
fn name(number: usize) -> [u8; 4] {
    let digits = b"0123456789ABCDEFGHIJKLMNOPQRSTUVWXYZ";
    [46_656, 1_296, 36, 1].map(|place| digits[number / place % 36])
}

/// The pages of a directory with so many entries.
fn directory_pages(geometry: &Geometry, entries: usize) -> usize {
    let more = entries.saturating_sub(geometry.first_page_entries());
    1 + more.div_ceil(geometry.continuation_entries())
}

/// A directory over these pages, each full but the last.
fn directory(geometry: &Geometry, pages: Vec<usize>, items: Vec<Item>) -> DirectoryPlan {
    let mut rest = items.len();
    let mut counts = Vec::new();
    for place in 0..pages.len() {
        let space = match place {
            0 => geometry.first_page_entries(),
            _ => geometry.continuation_entries(),
        };
        counts.push(space.min(rest));
        rest -= space.min(rest);
    }
    DirectoryPlan {
        pages,
        counts,
        items,
        ..DirectoryPlan::default()
    }
}

/// A file with full packets.
fn file(geometry: &Geometry, number: usize, pages: &[usize]) -> Item {
    let bytes: Vec<u8> = (0..pages.len() * geometry.max_data())
        .map(|place| (place * 31 + number) as u8)
        .collect();
    let chain = Chain::full(pages, bytes.len(), geometry.max_data());
    let extension = (number % 100) as u8;
    Item::File(FilePlan::new(name(number), extension, &bytes, chain))
}

impl Full {
    /// The pages that an entry of the root takes with all below it.
    fn item_pages(self, geometry: &Geometry) -> usize {
        match self {
            Full::Files => 1,
            Full::LongFiles => 16,
            Full::Directories => 1 + geometry.first_page_entries(),
        }
    }

    /// An entry of the root over these pages.
    fn item(self, geometry: &Geometry, number: usize, pages: &[usize]) -> Item {
        let Full::Directories = self else {
            return file(geometry, number, pages);
        };
        let files = pages[1..].iter().enumerate();
        let items = files.map(|(place, &page)| file(geometry, place, &[page]));
        Item::Directory {
            name: name(number),
            hidden: false,
            directory: directory(geometry, vec![pages[0]], items.collect()),
        }
    }

    /// What the image is full of, in words.
    fn words(self, geometry: &Geometry, entries: usize) -> String {
        let files = geometry.first_page_entries();
        match self {
            Full::Files => format!("{entries} one-page files in the root"),
            Full::LongFiles => format!("{entries} files of 16 pages in the root"),
            Full::Directories => format!("{entries} directories of {files} one-page files"),
        }
    }

    /// An image with a bitmap file and as many entries as fit, on rising pages.
    fn image(self, page_length: u32, page_count: u32) -> Bench {
        let geometry = Geometry::new(page_length, page_count).expect("P and N within their limits");
        let bitmap_bytes = geometry.bitmap_file_length();
        let bitmap_pages = bitmap_bytes.div_ceil(geometry.max_data());
        let item_pages = self.item_pages(&geometry);
        let needed = |entries: usize| {
            bitmap_pages + directory_pages(&geometry, entries) + entries * item_pages
        };
        let entries = (0..)
            .take_while(|&entries| needed(entries) <= geometry.page_count())
            .last()
            .unwrap_or(0);
        let mut pages = 1..geometry.page_count();
        let bitmap: Vec<usize> = pages.by_ref().take(bitmap_pages).collect();
        let mut root_pages = vec![0];
        root_pages.extend(pages.by_ref().take(directory_pages(&geometry, entries) - 1));
        let items: Vec<Item> = (0..entries)
            .map(|number| {
                let own: Vec<usize> = pages.by_ref().take(item_pages).collect();
                self.item(&geometry, number, &own)
            })
            .collect();
        let plan = ImagePlan {
            page_length,
            page_count,
            bitmap: BitmapPlan::File(Chain::full(&bitmap, bitmap_bytes, geometry.max_data())),
            root: directory(&geometry, root_pages, items),
            fill: Fill::Byte(0xFF),
        };
        let words = self.words(&geometry, entries);
        Bench {
            built: plan.build(),
            what: format!("{page_count} pages of {page_length} bytes, {words}"),
            owners: vec![0; table_bytes(page_count)],
            second_owners: vec![0; table_bytes(page_count)],
        }
    }
}

/// A crowded image: scattered chains, many packets partly filled or empty, some stamps, directories in directories, few pages free.
fn crowded(page_length: u32, page_count: u32) -> Bench {
    let shape = Shape {
        local_bitmap: false,
        scattered: true,
        free_pages: 3,
        least_entries: 12,
        most_entries: 24,
        most_file_pages: 8,
        directory_percent: 25,
        deep: false,
        odd_packet_percent: 60,
        stamp_percent: 20,
        hidden_percent: 8,
        fill: Fill::Byte(0xFF),
    };
    let built = random_plan(page_length, page_count, shape, &mut Rng::new(7)).build();
    let (files, directories) = (built.totals.files, built.totals.directories);
    Bench {
        what: format!(
            "{page_count} pages of {page_length} bytes, crowded: {files} scattered files in {directories} directories"
        ),
        built,
        owners: vec![0; table_bytes(page_count)],
        second_owners: vec![0; table_bytes(page_count)],
    }
}

/// The median of some times.
fn median(mut times: Vec<Duration>) -> Duration {
    times.sort_unstable();
    times[times.len() / 2]
}

/// Calls until the time is over and gives the number of calls that fill a round.
fn warm<T>(mut call: impl FnMut() -> T) -> u32 {
    let start = Instant::now();
    let mut calls = 0;
    while start.elapsed() < WARM_TIME || calls < 3 {
        black_box(call());
        calls += 1;
    }
    let one = start.elapsed() / calls;
    (ROUND_TIME.as_nanos() / one.as_nanos().max(1)).clamp(1, 100_000) as u32
}

/// The time of the call alone on a fresh copy of an image.
fn on_a_copy<T>(fresh: &[u8], copy: &mut [u8], call: &mut impl FnMut(&mut [u8]) -> T) -> Duration {
    copy.copy_from_slice(fresh);
    let start = Instant::now();
    black_box(call(copy));
    start.elapsed()
}

/// Times an edit of the library and of the second program in turn, each call on a fresh copy of the image; their answers and what they leave
/// of the image must be equal. Making the copy is part of neither time.
fn edit_times<T: PartialEq + Debug>(
    fresh: &[u8],
    mut library: impl FnMut(&mut [u8]) -> T,
    mut second: impl FnMut(&mut [u8]) -> T,
) -> Times {
    let mut copy = fresh.to_vec();
    let mut second_copy = fresh.to_vec();
    assert_eq!(library(&mut copy), second(&mut second_copy));
    assert!(copy == second_copy, "the images afterwards");
    let calls = warm(|| on_a_copy(fresh, &mut copy, &mut library));
    let second_calls = warm(|| on_a_copy(fresh, &mut second_copy, &mut second));
    let mut library_times = Vec::new();
    let mut second_times = Vec::new();
    for _ in 0..ROUNDS {
        let round: Duration = (0..calls)
            .map(|_| on_a_copy(fresh, &mut copy, &mut library))
            .sum();
        library_times.push(round / calls);
        let round: Duration = (0..second_calls)
            .map(|_| on_a_copy(fresh, &mut second_copy, &mut second))
            .sum();
        second_times.push(round / second_calls);
    }
    Times {
        library: median(library_times),
        second: median(second_times),
    }
}

/// The time of one call in a round.
fn round<T>(calls: u32, mut call: impl FnMut() -> T) -> Duration {
    let start = Instant::now();
    for _ in 0..calls {
        black_box(call());
    }
    start.elapsed() / calls
}

/// Times a call of the library and of the second program in turn; their answers must be equal.
fn times<T: PartialEq + Debug>(
    mut library: impl FnMut() -> T,
    mut second: impl FnMut() -> T,
) -> Times {
    assert_eq!(library(), second());
    let calls = warm(&mut library);
    let second_calls = warm(&mut second);
    let mut library_times = Vec::new();
    let mut second_times = Vec::new();
    for _ in 0..ROUNDS {
        library_times.push(round(calls, &mut library));
        second_times.push(round(second_calls, &mut second));
    }
    Times {
        library: median(library_times),
        second: median(second_times),
    }
}

impl Times {
    /// Prints lines with the ratios of these times to those of one check of the same image.
    fn print_over_check(&self, check: &Times, call: &str, what: &str) {
        let ratio = |time: Duration, check: Duration| time.as_secs_f64() / check.as_secs_f64();
        let library = ratio(self.library, check.library);
        let second = ratio(self.second, check.second);
        println!("{call} over one check, {what}: library, ratio {library:.2}");
        println!("{call} over one check, {what}: second program, ratio {second:.2}");
    }

    /// Prints a line with the ratio.
    fn print(&self, call: &str, what: &str) {
        let micro = |time: Duration| time.as_secs_f64() * 1e6;
        let (library, second) = (micro(self.library), micro(self.second));
        let ratio = library / second;
        println!(
            "{call}, {what}: library {library:.1} us, second program {second:.1} us, ratio {ratio:.2}"
        );
    }
}

impl Bench {
    /// Times a check.
    fn check(&mut self) -> Times {
        let (p, n) = (self.built.page_length, self.built.page_count);
        let image = &self.built.image;
        times(
            || library::check(p, n, image, &mut self.owners),
            || referee::check(p, n, image, &mut self.second_owners),
        )
    }

    /// Times a listing of the last entry.
    fn list(&mut self) -> Times {
        let (p, n) = (self.built.page_length, self.built.page_count);
        let image = &self.built.image;
        let last = self.built.entries.len() as u32 - 1;
        times(
            || library::list(p, n, image, &mut self.owners, last),
            || referee::list(p, n, image, &mut self.second_owners, last),
        )
    }

    /// Times a read of the last file.
    fn read(&mut self) -> Times {
        let (p, n) = (self.built.page_length, self.built.page_count);
        let image = &self.built.image;
        let last = &self.built.entries[self.built.entries.len() - 1];
        let mut out = vec![0; last.bytes.len()];
        let mut second_out = out.clone();
        times(
            || library::read(p, n, image, &last.path, &mut out, &mut self.owners),
            || {
                let owners = &mut self.second_owners;
                referee::read(p, n, image, &last.path, &mut second_out, owners)
            },
        )
    }

    /// Times a format with a bitmap file.
    fn format(&mut self) -> Times {
        let (p, n) = (self.built.page_length, self.built.page_count);
        edit_times(
            &self.built.image,
            |image| library::format(p, n, image, &mut self.owners, 0),
            |image| referee::format(p, n, image, &mut self.second_owners, 0),
        )
    }

    /// The image without its last file, which leaves pages free for one of its length.
    fn without_last_file(&self) -> Bench {
        let mut built = self.built.clone();
        let last = built.entries.pop().expect("the image has a file");
        let (p, n) = (built.page_length, built.page_count);
        let mut owners = self.owners.clone();
        let told = referee::delete(p, n, &mut built.image, &last.path, &mut owners);
        assert_eq!(told.number, 0);
        Bench {
            built,
            what: format!("{} but one file", self.what),
            owners: self.owners.clone(),
            second_owners: self.second_owners.clone(),
        }
    }

    /// Bytes for a file as long as the image's last.
    fn file_bytes(&self) -> Vec<u8> {
        let length = self.built.entries[self.built.entries.len() - 1].bytes.len();
        (0..length).map(|place| (place * 13 / 7) as u8).collect()
    }

    /// Times a put of this path, of a file as long as the image's last.
    fn put(&mut self, path: &[u8]) -> Times {
        let (p, n) = (self.built.page_length, self.built.page_count);
        let bytes = self.file_bytes();
        edit_times(
            &self.built.image,
            |image| library::put(p, n, image, path, &bytes, &mut self.owners),
            |image| referee::put(p, n, image, path, &bytes, &mut self.second_owners),
        )
    }

    /// Times and prints a put that replaces the last file and one of a new file, each beside one check of its image.
    fn print_puts(&mut self, check: &Times) {
        let last = self.built.entries[self.built.entries.len() - 1]
            .path
            .clone();
        let replacement = self.put(&last);
        replacement.print("replacement of the last file", &self.what);
        replacement.print_over_check(check, "replacement of the last file", &self.what);
        let mut bench = self.without_last_file();
        let check = bench.check();
        let new_file = bench.put(&last);
        new_file.print("put of a new file", &bench.what);
        new_file.print_over_check(&check, "put of a new file", &bench.what);
        let careful = bench.careful_put(&last);
        careful.print("careful put of a new file", &bench.what);
        careful.print_over_check(&check, "careful put of a new file", &bench.what);
    }

    /// Times a careful put of this path with every write allowed, of a file as long as the image's last.
    fn careful_put(&mut self, path: &[u8]) -> Times {
        let (p, n) = (self.built.page_length, self.built.page_count);
        let bytes = self.file_bytes();
        let all = u32::MAX;
        edit_times(
            &self.built.image,
            |image| library::careful_put(p, n, image, path, &bytes, &mut self.owners, all),
            |image| referee::careful_put(p, n, image, path, &bytes, &mut self.second_owners, all),
        )
    }

    /// Times a careful delete of the last file with every write allowed.
    fn careful_delete(&mut self) -> Times {
        let (p, n) = (self.built.page_length, self.built.page_count);
        let last = &self.built.entries[self.built.entries.len() - 1].path;
        let all = u32::MAX;
        edit_times(
            &self.built.image,
            |image| library::careful_delete(p, n, image, last, &mut self.owners, all),
            |image| referee::careful_delete(p, n, image, last, &mut self.second_owners, all),
        )
    }

    /// Times a mend after a careful delete of the last file was stopped before its marks were cleared.
    fn mend(&mut self) -> Times {
        let (p, n) = (self.built.page_length, self.built.page_count);
        let last = &self.built.entries[self.built.entries.len() - 1].path;
        let mut stopped = self.built.image.clone();
        let told = referee::careful_delete(p, n, &mut stopped, last, &mut self.owners, 1);
        assert_eq!((told.number, told.left), (0, 1));
        edit_times(
            &stopped,
            |image| library::mend(p, n, image, &mut self.owners),
            |image| referee::mend(p, n, image, &mut self.second_owners),
        )
    }

    /// Times the making of a directory in the root.
    fn make_directory(&mut self) -> Times {
        let (p, n) = (self.built.page_length, self.built.page_count);
        edit_times(
            &self.built.image,
            |image| library::make_directory(p, n, image, b"NEW'", &mut self.owners),
            |image| referee::make_directory(p, n, image, b"NEW'", &mut self.second_owners),
        )
    }

    /// Times the removal of a directory that was made in the root.
    fn remove_directory(&mut self) -> Times {
        let (p, n) = (self.built.page_length, self.built.page_count);
        let mut made = self.built.image.clone();
        let told = referee::make_directory(p, n, &mut made, b"NEW'", &mut self.owners);
        assert_eq!(told.number, 0);
        edit_times(
            &made,
            |image| library::remove_directory(p, n, image, b"NEW'", &mut self.owners),
            |image| referee::remove_directory(p, n, image, b"NEW'", &mut self.second_owners),
        )
    }

    /// Times and prints a directory made and removed, each beside one check of its image. If the image is of directories, one file less may leave a
    /// page too few; then there is nothing to time.
    fn print_directories(&mut self) {
        let mut bench = self.without_last_file();
        let (p, n) = (bench.built.page_length, bench.built.page_count);
        let mut image = bench.built.image.clone();
        if referee::make_directory(p, n, &mut image, b"NEW'", &mut bench.owners).number != 0 {
            return println!("no room for a directory, {}", bench.what);
        }
        let check = bench.check();
        let make = bench.make_directory();
        make.print("making of a directory", &bench.what);
        make.print_over_check(&check, "making of a directory", &bench.what);
        let remove = bench.remove_directory();
        remove.print("removal of a directory", &bench.what);
        remove.print_over_check(&check, "removal of a directory", &bench.what);
    }

    /// Times a gather, of each program into a second image of its own; these must be equal.
    fn gather(&mut self) -> Times {
        let (p, n) = (self.built.page_length, self.built.page_count);
        let image = &self.built.image;
        let mut copy = vec![0; image.len()];
        let mut second_copy = copy.clone();
        let gather = times(
            || library::gather(p, n, image, &mut copy, &mut self.owners),
            || referee::gather(p, n, image, &mut second_copy, &mut self.second_owners),
        );
        assert!(copy == second_copy, "the copies");
        gather
    }

    /// Times and prints a gather beside one check of the image.
    fn print_gather(&mut self, check: &Times) {
        let gather = self.gather();
        gather.print("gather", &self.what);
        gather.print_over_check(check, "gather", &self.what);
    }

    /// Times a delete of the last file.
    fn delete(&mut self) -> Times {
        let (p, n) = (self.built.page_length, self.built.page_count);
        let last = &self.built.entries[self.built.entries.len() - 1].path;
        edit_times(
            &self.built.image,
            |image| library::delete(p, n, image, last, &mut self.owners),
            |image| referee::delete(p, n, image, last, &mut self.second_owners),
        )
    }
}

/// The check sum alone.
fn sums() {
    let bytes: Vec<u8> = (0..32_768).map(|place| (place * 7 / 3) as u8).collect();
    let sum = times(
        || library::crc16(1, black_box(&bytes)),
        || referee::crc16(1, black_box(&bytes)),
    );
    sum.print("check sum", "32,768 bytes");
}

/// How the time of a check grows: each time over that of half the pages.
fn growth(full: Full, words: &str) {
    let mut before: Option<Times> = None;
    for page_count in [256, 512, 1_024, 2_048, 4_096, 8_192] {
        let mut bench = full.image(64, page_count);
        let times = bench.check();
        times.print("check", &bench.what);
        if let Some(half) = before {
            let ratio = |now: Duration, half: Duration| now.as_secs_f64() / half.as_secs_f64();
            println!(
                "growth, {words}, {page_count} pages over {}: library, ratio {:.2}",
                page_count / 2,
                ratio(times.library, half.library)
            );
            println!(
                "growth, {words}, {page_count} pages over {}: second program, ratio {:.2}",
                page_count / 2,
                ratio(times.second, half.second)
            );
        }
        before = Some(times);
    }
}

/// Says what is compared and how.
fn print_method() {
    println!("Library time over the second program's, built for release.");
    println!(
        "Check sums: both programs are written bit by bit. The library mixes a byte in and takes eight steps, of which its compiler \
         makes a table of 256; the second program takes in a bit of the byte at each step, without a table."
    );
    println!(
        "Repeated names: the library searches the directory's earlier entries, \
         the second program a hash table."
    );
    println!(
        "Buffers: both programs get the same image and, each its own, an owner table of just 4N bytes \
         and an output of the file's length, all written before."
    );
    println!(
        "Edits: each format, put, delete, careful put, careful delete, mend, making and removal of a directory gets a fresh copy of the image; making the copy is part of neither time. \
         Both programs leave the same image. A put is of a file as long as the last, of other bytes; its time over one check's \
         is that of the same image in the same run."
    );
    println!(
        "Gather: each program writes a second image of its own, the same one each time; both leave the same bytes. Its time over one check's is that of \
         the same image in the same run."
    );
    println!(
        "Warmed: each program is called for {} ms before it is timed. Then {ROUNDS} rounds of about {} ms \
         or one call, the programs in turn.",
        WARM_TIME.as_millis(),
        ROUND_TIME.as_millis()
    );
    println!(
        "A time is the median of the rounds, for one call; a ratio is that of two such medians."
    );
}

fn main() {
    if cfg!(debug_assertions) {
        println!("This is not a release build: the ratios below mean nothing.");
    }
    print_method();
    println!();
    sums();
    for (page_length, page_count) in [(32, 256), (32, 1_024), (128, 4_096)] {
        for full in [Full::Files, Full::LongFiles, Full::Directories] {
            let mut bench = full.image(page_length, page_count);
            let check = bench.check();
            check.print("check", &bench.what);
            bench.list().print("list of the last entry", &bench.what);
            bench.read().print("read of the last file", &bench.what);
            bench.print_puts(&check);
            bench.print_directories();
            bench.delete().print("delete of the last file", &bench.what);
            let careful = bench.careful_delete();
            careful.print("careful delete of the last file", &bench.what);
            let mend = bench.mend();
            mend.print("mend after a stopped delete of the last file", &bench.what);
            bench.format().print("format over it", &bench.what);
            bench.print_gather(&check);
        }
    }
    println!();
    for (page_length, page_count) in [(32, 256), (128, 4_096)] {
        let mut bench = crowded(page_length, page_count);
        let check = bench.check();
        check.print("check", &bench.what);
        bench.print_gather(&check);
    }
    println!();
    growth(Full::Files, "one-page files in the root");
    growth(Full::LongFiles, "files of 16 pages in the root");
    growth(Full::Directories, "directories of one-page files");
}
