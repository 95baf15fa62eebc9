//! What the program `list` prints (document 01, "`list`").

use crate::answer::{Answer, Fault};
use crate::check::check_image;
use crate::geometry::Geometry;
use crate::tree::{Entry, Tree};

/// The bytes of a dump's header: P (2), N (2), offset of page 0 (4).
const HEADER: usize = 8;

/// The greatest offset, and the most bytes after it.
const LIMIT: usize = 32_768;

/// A dump's page length, page count and image.
struct Dump<'a> {
    page_length: u32,
    page_count: u32,
    image: &'a [u8],
}

/// The text of `list` for a dump: a line of totals and a line for each entry, or the refusal.
pub(crate) fn list_text(dump: &[u8]) -> Vec<u8> {
    let text = match read_dump(dump).and_then(|dump| accepted_text(&dump)) {
        Ok(text) => text,
        Err(answer) => format!("refused {} page {}\n", answer.number, answer.page),
    };
    text.into_bytes()
}

/// A short header, another offset, one past the dump's end, or more than 32,768 bytes after it is 19.
fn read_dump(dump: &[u8]) -> Result<Dump<'_>, Answer> {
    let malformed = Fault::Dump.at(0);
    let header = dump.get(..HEADER).ok_or(malformed)?;
    let offset = number(&header[4..8]) as usize;
    if !(HEADER..=LIMIT).contains(&offset) {
        return Err(malformed);
    }
    let image = dump.get(offset..).ok_or(malformed)?;
    if image.len() > LIMIT {
        return Err(malformed);
    }
    Ok(Dump {
        page_length: number(&header[0..2]),
        page_count: number(&header[2..4]),
        image,
    })
}

/// A number of up to four bytes, low byte first.
fn number(bytes: &[u8]) -> u32 {
    let low_last = bytes.iter().rev();
    low_last.fold(0, |number, &byte| number << 8 | u32::from(byte))
}

/// The lines for an accepted image; all else is the check's answer.
fn accepted_text(dump: &Dump) -> Result<String, Answer> {
    let geometry =
        Geometry::new(dump.page_length, dump.page_count).ok_or(Fault::Arguments.at(0))?;
    if dump.image.len() != geometry.image_length() {
        return Err(Fault::Arguments.at(0));
    }
    let tree = check_image(&geometry, dump.image)?;
    let mut text = totals_line(&geometry, &tree);
    for (level, entry) in tree.walk() {
        text.push_str(&entry_line(level, entry));
    }
    Ok(text)
}

/// The line of totals.
fn totals_line(geometry: &Geometry, tree: &Tree) -> String {
    let totals = tree.totals();
    format!(
        "page {} pages {} used {} files {} directories {}\n",
        geometry.page_length(),
        geometry.page_count(),
        totals.used,
        totals.files,
        totals.directories
    )
}

/// Level, name without blanks, extension in three digits, `r`, `h` or `-`, start page, pages, bytes.
fn entry_line(level: u32, entry: &Entry) -> String {
    let fields = &entry.fields;
    let name: String = fields.name.iter().map(|&byte| char::from(byte)).collect();
    let attribute = match (fields.attribute(), fields.is_subdirectory()) {
        (false, _) => '-',
        (true, false) => 'r',
        (true, true) => 'h',
    };
    format!(
        "{} {} {:03} {} {} {} {}\n",
        level,
        name.trim_end_matches(' '),
        fields.extension_number(),
        attribute,
        fields.start,
        fields.pages,
        entry.length()
    )
}
