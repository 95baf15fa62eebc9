//! The calls of `agreed`, made by the library and the second program alike, with the image of a button and an owner table of random bytes.

use crate::agreed;
use crate::Button;
use referee::rng::Rng;
use referee::{Answer, Length, Listing, Mended, Totals, Writes};

/// Checks an image.
pub fn check(button: &Button, owner_bytes: usize, rng: &mut Rng) -> Totals {
    let (p, n, image) = (button.page_length, button.page_count, &button.image);
    agreed::check(p, n, image, &mut rng.bytes(owner_bytes))
}

/// Lists the entry at a position.
pub fn list(button: &Button, owner_bytes: usize, position: u32, rng: &mut Rng) -> Listing {
    let (p, n, image) = (button.page_length, button.page_count, &button.image);
    agreed::list(p, n, image, &mut rng.bytes(owner_bytes), position)
}

/// Reads a file into an output of so many bytes.
pub fn read(
    button: &Button,
    owner_bytes: usize,
    path: &[u8],
    out_bytes: usize,
    rng: &mut Rng,
) -> Length {
    read_bytes(button, owner_bytes, path, out_bytes, rng).0
}

/// Reads a file and gives the bytes read too.
pub fn read_bytes(
    button: &Button,
    owner_bytes: usize,
    path: &[u8],
    out_bytes: usize,
    rng: &mut Rng,
) -> (Length, Vec<u8>) {
    let (p, n, image) = (button.page_length, button.page_count, &button.image);
    let mut out = rng.bytes(out_bytes);
    let told = agreed::read(p, n, image, path, &mut out, &mut rng.bytes(owner_bytes));
    out.truncate(told.length as usize);
    (told, out)
}

/// Formats an image.
pub fn format(button: &mut Button, owner_bytes: usize, local: u32, rng: &mut Rng) -> Answer {
    let (p, n, image) = (button.page_length, button.page_count, &mut button.image);
    agreed::format(p, n, image, &mut rng.bytes(owner_bytes), local)
}

/// Makes or replaces a file.
pub fn put(
    button: &mut Button,
    owner_bytes: usize,
    path: &[u8],
    bytes: &[u8],
    rng: &mut Rng,
) -> Answer {
    let (p, n, image) = (button.page_length, button.page_count, &mut button.image);
    agreed::put(p, n, image, path, bytes, &mut rng.bytes(owner_bytes))
}

/// Deletes a file.
pub fn delete(button: &mut Button, owner_bytes: usize, path: &[u8], rng: &mut Rng) -> Answer {
    let (p, n, image) = (button.page_length, button.page_count, &mut button.image);
    agreed::delete(p, n, image, path, &mut rng.bytes(owner_bytes))
}

/// Makes a directory without entries.
pub fn make_directory(
    button: &mut Button,
    owner_bytes: usize,
    path: &[u8],
    rng: &mut Rng,
) -> Answer {
    let (p, n, image) = (button.page_length, button.page_count, &mut button.image);
    agreed::make_directory(p, n, image, path, &mut rng.bytes(owner_bytes))
}

/// Removes a directory that has no entries.
pub fn remove_directory(
    button: &mut Button,
    owner_bytes: usize,
    path: &[u8],
    rng: &mut Rng,
) -> Answer {
    let (p, n, image) = (button.page_length, button.page_count, &mut button.image);
    agreed::remove_directory(p, n, image, path, &mut rng.bytes(owner_bytes))
}

/// Makes or replaces a file by at most `allowed` page writes.
pub fn careful_put(
    button: &mut Button,
    owner_bytes: usize,
    path: &[u8],
    bytes: &[u8],
    allowed: u32,
    rng: &mut Rng,
) -> Writes {
    let (p, n, image) = (button.page_length, button.page_count, &mut button.image);
    let owners = &mut rng.bytes(owner_bytes);
    agreed::careful_put(p, n, image, path, bytes, owners, allowed)
}

/// Deletes a file by at most `allowed` page writes.
pub fn careful_delete(
    button: &mut Button,
    owner_bytes: usize,
    path: &[u8],
    allowed: u32,
    rng: &mut Rng,
) -> Writes {
    let (p, n, image) = (button.page_length, button.page_count, &mut button.image);
    agreed::careful_delete(p, n, image, path, &mut rng.bytes(owner_bytes), allowed)
}

/// Clears the marks of pages that no chain has.
pub fn mend(button: &mut Button, owner_bytes: usize, rng: &mut Rng) -> Mended {
    let (p, n, image) = (button.page_length, button.page_count, &mut button.image);
    agreed::mend(p, n, image, &mut rng.bytes(owner_bytes))
}

/// Gathers the image into a second one of so many random bytes; gives the second image too.
pub fn gather(
    button: &Button,
    copy_bytes: usize,
    owner_bytes: usize,
    rng: &mut Rng,
) -> (Answer, Vec<u8>) {
    let (p, n, image) = (button.page_length, button.page_count, &button.image);
    let mut copy = rng.bytes(copy_bytes);
    let told = agreed::gather(p, n, image, &mut copy, &mut rng.bytes(owner_bytes));
    (told, copy)
}
