//! Control fields of directories' first pages (document 01, "Directory pages").

use crate::answer::{Answer, Fault};
use crate::geometry::Geometry;
use crate::names::Name;

/// Bit 7 of the bitmap control: the four bytes after it are the bitmap.
const LOCAL_BIT: u8 = 0x80;

/// Bit 0 of the bitmap control: work in progress.
const IN_PROGRESS_BIT: u8 = 0x01;

/// Bits 1 to 6 of the bitmap control, which are zero.
const ZERO_BITS: u8 = 0x7E;

/// What the root's control field says of the bitmap.
#[derive(Clone, Copy, Debug)]
pub(crate) enum BitmapPlace {
    Local([u8; 4]),
    File { start: usize, pages: usize },
}

/// Judges the root's control field: too short (4), marker (3), in progress (5), the rest (4).
pub(crate) fn read_root(geometry: &Geometry, body: &[u8]) -> Result<BitmapPlace, Answer> {
    let Some(field) = body.get(..geometry.control_length()) else {
        return Err(Fault::Control.at(0));
    };
    if field[0] != geometry.marker() {
        return Err(Fault::Marker.at(0));
    }
    let (map_address, bitmap_part) = field[1..].split_at(geometry.number_length());
    let bitmap_control = bitmap_part[0];
    if bitmap_control & IN_PROGRESS_BIT != 0 {
        return Err(Fault::InProgress.at(0));
    }
    if map_address.iter().any(|&byte| byte != 0) || bitmap_control & ZERO_BITS != 0 {
        return Err(Fault::Control.at(0));
    }
    let four = [
        bitmap_part[1],
        bitmap_part[2],
        bitmap_part[3],
        bitmap_part[4],
    ];
    if bitmap_control & LOCAL_BIT == 0 {
        return bitmap_file_place(geometry, four);
    }
    if !geometry.allows_local_bitmap() {
        return Err(Fault::Control.at(0));
    }
    Ok(BitmapPlace::Local(four))
}

/// The four bytes that place a bitmap file: 0, 0, start, pages for n = 1; start, pages for n = 2.
fn bitmap_file_place(geometry: &Geometry, four: [u8; 4]) -> Result<BitmapPlace, Answer> {
    let (start_at, pages_at) = if geometry.number_length() == 1 {
        if four[0] != 0 || four[1] != 0 {
            return Err(Fault::Control.at(0));
        }
        (2, 3)
    } else {
        (0, 2)
    };
    Ok(BitmapPlace::File {
        start: geometry.number_at(&four[start_at..]),
        pages: geometry.number_at(&four[pages_at..]),
    })
}

/// The root's control field for a bitmap place: marker, map address zero, bitmap control, four bytes.
pub(crate) fn root_field(geometry: &Geometry, place: BitmapPlace) -> Vec<u8> {
    let mut field = vec![geometry.marker()];
    field.extend(geometry.number_bytes(0));
    match place {
        BitmapPlace::Local(bits) => {
            field.push(LOCAL_BIT);
            field.extend(bits);
        }
        BitmapPlace::File { start, pages } => {
            field.push(0);
            if geometry.number_length() == 1 {
                field.extend([0, 0]);
            }
            field.extend(geometry.number_bytes(start));
            field.extend(geometry.number_bytes(pages));
        }
    }
    field
}

/// Where the four bitmap bytes stand in the root's control field.
pub(crate) fn local_bitmap_offset(geometry: &Geometry) -> usize {
    geometry.control_length() - 4
}

/// Judges a subdirectory's control field on `page`: too short (4), marker (3), the rest (4).
/// The rest is the parent's name (ROOT for the root), one zero byte, the parent's start page.
pub(crate) fn judge_subdirectory(
    geometry: &Geometry,
    body: &[u8],
    page: usize,
    parent_name: &Name,
    parent_start: usize,
) -> Result<(), Answer> {
    let Some(field) = body.get(..geometry.control_length()) else {
        return Err(Fault::Control.at(page));
    };
    if field[0] != geometry.marker() {
        return Err(Fault::Marker.at(page));
    }
    let name_right = field[1..5] == *parent_name;
    let start_right = geometry.number_at(&field[6..]) == parent_start;
    if !name_right || field[5] != 0 || !start_right {
        return Err(Fault::Control.at(page));
    }
    Ok(())
}

/// The control field of a subdirectory: marker, the parent's name (ROOT for the root), one zero byte, the parent's start page.
pub(crate) fn subdirectory_field(
    geometry: &Geometry,
    parent_name: &Name,
    parent_start: usize,
) -> Vec<u8> {
    let mut field = vec![geometry.marker()];
    field.extend(parent_name);
    field.push(0);
    field.extend(geometry.number_bytes(parent_start));
    field
}
