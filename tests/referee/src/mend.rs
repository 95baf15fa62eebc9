//! The mend of a bitmap (document 02, A4).

use crate::answer::{Answer, Fault};
use crate::bitmap;
use crate::check;
use crate::geometry::Geometry;

/// Clears the marks of pages that no chain has, and tells their number. Refusals are the check's, but 13 only where a page in use is
/// unmarked or a bit from N up is set; the page told is then the check's, the lowest differing bit, whatever that bit is.
pub(crate) fn mend(geometry: &Geometry, image: &mut [u8]) -> Result<usize, Answer> {
    let (tree, bits) = check::walk_image(geometry, image)?;
    let differing = check::differing_bits(&bits, &tree.used);
    let Some(lowest) = differing.first() else {
        return Ok(0);
    };
    if differing.iter().any(|bit| !bit.is_mark_without_owner) {
        return Err(Fault::Bitmap.at(lowest.place));
    }
    bitmap::write(geometry, image, &tree.bitmap, &tree.used)?;
    Ok(differing.len())
}
