//! What the library and the second program answer alike: each call is made by both with equal arguments.
//!
//! The functions have the parameters of those of `library` and of the second program. Every field of the answers is compared, and every byte of the
//! lent memory afterwards: of the owner table, of the output, of an image that is edited or gathered. The library works on copies with some bytes
//! before and after them. It may change neither these nor a path, a file's bytes, an image that is only read, or an image whose edit is refused.

use std::fmt::{Arguments, Debug};

use crate::library;
use referee::{Added, Answer, Length, Listing, Mended, Report, Totals, Writes};

/// The bytes before and after a slice that is lent to the library.
const MARGIN: [u8; 24] = [0x96; 24];

/// A copy of a slice, lent to the library.
struct Lent {
    /// The copy between two margins.
    bytes: Vec<u8>,
}

impl Lent {
    /// A copy of these bytes.
    fn of(slice: &[u8]) -> Lent {
        Lent {
            bytes: [&MARGIN, slice, &MARGIN].concat(),
        }
    }

    /// The copy, to be lent.
    fn slice(&mut self) -> &mut [u8] {
        let end = self.bytes.len() - MARGIN.len();
        &mut self.bytes[MARGIN.len()..end]
    }

    /// Demands these bytes in the copy after a call, and the margins as before.
    fn demand(&mut self, what: &str, call: Arguments, expected: &[u8]) {
        let slice = self.slice();
        if slice != expected {
            let mut pairs = slice.iter().zip(expected);
            let place = pairs.position(|(byte, other)| byte != other).unwrap_or(0);
            panic!("byte {place} of the {what} after {call}");
        }
        let (before, rest) = self.bytes.split_at(MARGIN.len());
        let after = &rest[expected.len()..];
        assert!(before == MARGIN, "bytes before the {what} after {call}");
        assert!(after == MARGIN, "bytes after the {what} after {call}");
    }
}

/// Demands one answer from both.
fn equal<T: PartialEq + Debug>(call: Arguments, told: T, expected: T) -> T {
    assert_eq!(told, expected, "library and second program: {call}");
    expected
}

/// The CRC-16 register after `bytes`.
pub fn crc16(start: u16, bytes: &[u8]) -> u16 {
    equal(
        format_args!("check sum of {} bytes, start {start}", bytes.len()),
        library::crc16(start, bytes),
        referee::crc16(start, bytes),
    )
}

/// The check bytes of a packet.
pub fn check_bytes(page: u16, packet: &[u8]) -> [u8; 2] {
    let told = (!library::crc16(page, packet)).to_le_bytes();
    let expected = referee::check_bytes(page, packet);
    equal(format_args!("check of page {page}"), told, expected)
}

/// A call that only reads an image, made by both: equal answers, equal owner tables, and an image as before.
fn query<T: PartialEq + Debug>(
    call: Arguments,
    image: &[u8],
    owners: &mut [u8],
    library: impl FnOnce(&[u8], &mut [u8]) -> T,
    second: impl FnOnce(&[u8], &mut [u8]) -> T,
) -> T {
    let mut lent_image = Lent::of(image);
    let mut lent_owners = Lent::of(owners);
    let told = library(lent_image.slice(), lent_owners.slice());
    let expected = second(image, owners);
    lent_image.demand("image", call, image);
    let answer = equal(call, told, expected);
    lent_owners.demand("owner table", call, owners);
    answer
}

/// Checks an image.
pub fn check(page_length: u32, page_count: u32, image: &[u8], owners: &mut [u8]) -> Totals {
    let (p, n, table) = (page_length, page_count, owners.len());
    query(
        format_args!("check, {n} pages of {p} bytes, {table} owner bytes"),
        image,
        owners,
        |image, owners| library::check(p, n, image, owners),
        |image, owners| referee::check(p, n, image, owners),
    )
}

/// Lists the entry at a position in walk order.
pub fn list(
    page_length: u32,
    page_count: u32,
    image: &[u8],
    owners: &mut [u8],
    position: u32,
) -> Listing {
    let (p, n, table) = (page_length, page_count, owners.len());
    query(
        format_args!("list of position {position}, {n} pages of {p} bytes, {table} owner bytes"),
        image,
        owners,
        |image, owners| library::list(p, n, image, owners, position),
        |image, owners| referee::list(p, n, image, owners, position),
    )
}

/// Reads a file into the front of `out`.
pub fn read(
    page_length: u32,
    page_count: u32,
    image: &[u8],
    path: &[u8],
    out: &mut [u8],
    owners: &mut [u8],
) -> Length {
    let (p, n, table, room) = (page_length, page_count, owners.len(), out.len());
    let mut lent_path = Lent::of(path);
    let mut lent_out = Lent::of(out);
    let told = query(
        format_args!(
            "read of {path:?} into {room} bytes, {n} pages of {p} bytes, {table} owner bytes"
        ),
        image,
        owners,
        |image, owners| library::read(p, n, image, lent_path.slice(), lent_out.slice(), owners),
        |image, owners| referee::read(p, n, image, path, out, owners),
    );
    lent_path.demand("path", format_args!("read of {path:?}"), path);
    lent_out.demand("output", format_args!("read of {path:?}"), out);
    told
}

/// An answer with a number, 0 if the call was done.
trait Numbered: PartialEq + Debug {
    /// The number.
    fn number(&self) -> u32;
}

impl Numbered for Answer {
    fn number(&self) -> u32 {
        self.number
    }
}

impl Numbered for Writes {
    fn number(&self) -> u32 {
        self.number
    }
}

impl Numbered for Mended {
    fn number(&self) -> u32 {
        self.number
    }
}

/// An edit made by both, each of its own copy of the image: equal answers, equal images and owner tables. A refusal changes no byte of the image.
fn edit<T: Numbered>(
    call: Arguments,
    image: &mut [u8],
    owners: &mut [u8],
    library: impl FnOnce(&mut [u8], &mut [u8]) -> T,
    second: impl FnOnce(&mut [u8], &mut [u8]) -> T,
) -> T {
    let before = image.to_vec();
    let mut lent_image = Lent::of(image);
    let mut lent_owners = Lent::of(owners);
    let told = library(lent_image.slice(), lent_owners.slice());
    let answer = equal(call, told, second(image, owners));
    lent_image.demand("image", call, image);
    lent_owners.demand("owner table", call, owners);
    assert!(
        answer.number() == 0 || image == before,
        "a refusal changes no byte of the image: {call}"
    );
    answer
}

/// Formats an image: `local` 0 asks for a bitmap file, any other number for a local bitmap.
pub fn format(
    page_length: u32,
    page_count: u32,
    image: &mut [u8],
    owners: &mut [u8],
    local: u32,
) -> Answer {
    let (p, n, table) = (page_length, page_count, owners.len());
    edit(
        format_args!("format with local {local}, {n} pages of {p} bytes, {table} owner bytes"),
        image,
        owners,
        |image, owners| library::format(p, n, image, owners, local),
        |image, owners| referee::format(p, n, image, owners, local),
    )
}

/// Makes or replaces a file.
pub fn put(
    page_length: u32,
    page_count: u32,
    image: &mut [u8],
    path: &[u8],
    bytes: &[u8],
    owners: &mut [u8],
) -> Answer {
    let (p, n, table, length) = (page_length, page_count, owners.len(), bytes.len());
    let mut lent_path = Lent::of(path);
    let mut lent_bytes = Lent::of(bytes);
    let told = edit(
        format_args!(
            "put of {length} bytes to {path:?}, {n} pages of {p} bytes, {table} owner bytes"
        ),
        image,
        owners,
        |image, owners| library::put(p, n, image, lent_path.slice(), lent_bytes.slice(), owners),
        |image, owners| referee::put(p, n, image, path, bytes, owners),
    );
    lent_path.demand("path", format_args!("put to {path:?}"), path);
    lent_bytes.demand("file's bytes", format_args!("put to {path:?}"), bytes);
    told
}

/// Deletes a file.
pub fn delete(
    page_length: u32,
    page_count: u32,
    image: &mut [u8],
    path: &[u8],
    owners: &mut [u8],
) -> Answer {
    let (p, n, table) = (page_length, page_count, owners.len());
    let mut lent_path = Lent::of(path);
    let told = edit(
        format_args!("delete of {path:?}, {n} pages of {p} bytes, {table} owner bytes"),
        image,
        owners,
        |image, owners| library::delete(p, n, image, lent_path.slice(), owners),
        |image, owners| referee::delete(p, n, image, path, owners),
    );
    lent_path.demand("path", format_args!("delete of {path:?}"), path);
    told
}

/// Makes a directory without entries.
pub fn make_directory(
    page_length: u32,
    page_count: u32,
    image: &mut [u8],
    path: &[u8],
    owners: &mut [u8],
) -> Answer {
    let (p, n, table) = (page_length, page_count, owners.len());
    let mut lent_path = Lent::of(path);
    let told = edit(
        format_args!(
            "making of the directory {path:?}, {n} pages of {p} bytes, {table} owner bytes"
        ),
        image,
        owners,
        |image, owners| library::make_directory(p, n, image, lent_path.slice(), owners),
        |image, owners| referee::make_directory(p, n, image, path, owners),
    );
    lent_path.demand(
        "path",
        format_args!("making of the directory {path:?}"),
        path,
    );
    told
}

/// Removes a directory that has no entries.
pub fn remove_directory(
    page_length: u32,
    page_count: u32,
    image: &mut [u8],
    path: &[u8],
    owners: &mut [u8],
) -> Answer {
    let (p, n, table) = (page_length, page_count, owners.len());
    let mut lent_path = Lent::of(path);
    let told = edit(
        format_args!(
            "removal of the directory {path:?}, {n} pages of {p} bytes, {table} owner bytes"
        ),
        image,
        owners,
        |image, owners| library::remove_directory(p, n, image, lent_path.slice(), owners),
        |image, owners| referee::remove_directory(p, n, image, path, owners),
    );
    lent_path.demand(
        "path",
        format_args!("removal of the directory {path:?}"),
        path,
    );
    told
}

/// Makes or replaces a file by at most `allowed` page writes.
pub fn careful_put(
    page_length: u32,
    page_count: u32,
    image: &mut [u8],
    path: &[u8],
    bytes: &[u8],
    owners: &mut [u8],
    allowed: u32,
) -> Writes {
    let (p, n, table, length) = (page_length, page_count, owners.len(), bytes.len());
    let mut lent_path = Lent::of(path);
    let mut lent_bytes = Lent::of(bytes);
    let told = edit(
        format_args!(
            "careful put of {length} bytes to {path:?}, {allowed} writes allowed, {n} pages of {p} bytes, {table} owner bytes"
        ),
        image,
        owners,
        |image, owners| {
            let (path, bytes) = (lent_path.slice(), lent_bytes.slice());
            library::careful_put(p, n, image, path, bytes, owners, allowed)
        },
        |image, owners| referee::careful_put(p, n, image, path, bytes, owners, allowed),
    );
    lent_path.demand("path", format_args!("careful put to {path:?}"), path);
    lent_bytes.demand(
        "file's bytes",
        format_args!("careful put to {path:?}"),
        bytes,
    );
    told
}

/// Deletes a file by at most `allowed` page writes.
pub fn careful_delete(
    page_length: u32,
    page_count: u32,
    image: &mut [u8],
    path: &[u8],
    owners: &mut [u8],
    allowed: u32,
) -> Writes {
    let (p, n, table) = (page_length, page_count, owners.len());
    let mut lent_path = Lent::of(path);
    let told = edit(
        format_args!(
            "careful delete of {path:?}, {allowed} writes allowed, {n} pages of {p} bytes, {table} owner bytes"
        ),
        image,
        owners,
        |image, owners| library::careful_delete(p, n, image, lent_path.slice(), owners, allowed),
        |image, owners| referee::careful_delete(p, n, image, path, owners, allowed),
    );
    lent_path.demand("path", format_args!("careful delete of {path:?}"), path);
    told
}

/// Clears the marks of pages that no chain has.
pub fn mend(page_length: u32, page_count: u32, image: &mut [u8], owners: &mut [u8]) -> Mended {
    let (p, n, table) = (page_length, page_count, owners.len());
    edit(
        format_args!("mend, {n} pages of {p} bytes, {table} owner bytes"),
        image,
        owners,
        |image, owners| library::mend(p, n, image, owners),
        |image, owners| referee::mend(p, n, image, owners),
    )
}

/// Builds a gathered copy of an image, which stays; a refusal changes no byte of the copy.
pub fn gather(
    page_length: u32,
    page_count: u32,
    image: &[u8],
    copy: &mut [u8],
    owners: &mut [u8],
) -> Answer {
    let (p, n, table, room) = (page_length, page_count, owners.len(), copy.len());
    let before = copy.to_vec();
    let mut lent_copy = Lent::of(copy);
    let call =
        format_args!("gather into {room} bytes, {n} pages of {p} bytes, {table} owner bytes");
    let told = query(
        call,
        image,
        owners,
        |image, owners| library::gather(p, n, image, lent_copy.slice(), owners),
        |image, owners| referee::gather(p, n, image, copy, owners),
    );
    lent_copy.demand("copy", call, copy);
    assert!(
        told.number == 0 || copy == before,
        "a refusal changes no byte of the copy: {call}"
    );
    told
}

/// Starts a report.
pub fn report_start(limit: i32, margin: u16) -> Report {
    equal(
        format_args!("report, limit {limit}, margin {margin}"),
        library::report_start(limit, margin),
        referee::report_start(limit, margin),
    )
}

/// Starts a report that carries a version with its K.
pub fn report_start_weighted(limit: i32, margin: u16, version: u32, knee: u32) -> Report {
    equal(
        format_args!("report, limit {limit}, margin {margin}, version {version}, knee {knee}"),
        library::report_start_weighted(limit, margin, version, knee),
        referee::report_start_weighted(limit, margin, version, knee),
    )
}

/// Adds a count file to a report; a refusal tells page 0 and leaves the report as it was given.
pub fn report_add(report: Report, file: &[u8]) -> Added {
    let bytes = file.len();
    let call = format_args!("count file of {bytes} bytes to {report:?}");
    let mut lent = Lent::of(file);
    let told = library::report_add(report, lent.slice());
    lent.demand("count file", call, file);
    let told = equal(call, told, referee::report_add(report, file));
    assert_eq!(told.page, 0, "page: {call}");
    assert!(told.number == 0 || told.report == report, "refusal: {call}");
    told
}
