//! The bitmap: its bytes, and the packets that hold it (document 01, "Directory pages" and "Edits").

use crate::answer::Answer;
use crate::control;
use crate::geometry::Geometry;
use crate::packet::{self, Written};
use crate::tree::Bitmap;

/// The bytes of a bitmap, low bit of the first byte first.
pub(crate) fn bytes_of(used: &[bool]) -> Vec<u8> {
    let mut bytes = vec![0; used.len().div_ceil(8)];
    for (page, &in_use) in used.iter().enumerate() {
        if in_use {
            bytes[page / 8] |= 1 << (page % 8);
        }
    }
    bytes
}

/// The four bytes of a local bitmap.
pub(crate) fn local_bytes_of(used: &[bool]) -> [u8; 4] {
    let mut four = [0; 4];
    for (byte, bits) in four.iter_mut().zip(bytes_of(used)) {
        *byte = bits;
    }
    four
}

/// The packets that mark these pages, in chain order; with a local bitmap that of page 0.
/// A bitmap file keeps its packets' lengths and only changes bits.
pub(crate) fn packets(
    geometry: &Geometry,
    image: &[u8],
    bitmap: &Bitmap,
    used: &[bool],
) -> Result<Vec<Written>, Answer> {
    let Bitmap::File(pages) = bitmap else {
        let mut root = packet::copy(geometry, image, 0)?;
        let offset = control::local_bitmap_offset(geometry);
        root.body[offset..offset + 4].copy_from_slice(&local_bytes_of(used));
        return Ok(vec![root]);
    };
    let bytes = bytes_of(used);
    let mut rest = bytes.as_slice();
    let mut packets = Vec::new();
    for &page in pages {
        let old = packet::copy(geometry, image, page)?;
        let (bits, after) = rest.split_at(old.body.len().min(rest.len()));
        packets.push(Written {
            body: bits.to_vec(),
            ..old
        });
        rest = after;
    }
    Ok(packets)
}

/// Writes the bitmap where it stands.
pub(crate) fn write(
    geometry: &Geometry,
    image: &mut [u8],
    bitmap: &Bitmap,
    used: &[bool],
) -> Result<(), Answer> {
    for written in packets(geometry, image, bitmap, used)? {
        written.write(geometry, image);
    }
    Ok(())
}
