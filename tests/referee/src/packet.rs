//! Packets: reading one with its check, and writing one (document 01, "Packet and chain").

use crate::answer::{Answer, Fault};
use crate::crc::check_bytes;
use crate::geometry::Geometry;

/// A sound packet: its bytes without the continuation pointer, and the pointer (0 ends the chain).
#[derive(Clone, Copy, Debug)]
pub(crate) struct Packet<'a> {
    pub(crate) body: &'a [u8],
    pub(crate) pointer: usize,
}

/// A packet to be written: its page, its bytes without the pointer, and the pointer.
#[derive(Clone, Debug, PartialEq, Eq)]
pub(crate) struct Written {
    pub(crate) page: usize,
    pub(crate) body: Vec<u8>,
    pub(crate) pointer: usize,
}

impl Written {
    /// Writes the packet to its page.
    pub(crate) fn write(&self, geometry: &Geometry, image: &mut [u8]) {
        write(geometry, image, self.page, &self.body, self.pointer);
    }

    /// Whether the page holds just this packet, with a right check.
    pub(crate) fn stands_in(&self, geometry: &Geometry, image: &[u8]) -> bool {
        read(geometry, image, self.page)
            .is_ok_and(|packet| packet.body == self.body && packet.pointer == self.pointer)
    }
}

/// A copy of a page's packet, to be changed and written.
pub(crate) fn copy(geometry: &Geometry, image: &[u8], page: usize) -> Result<Written, Answer> {
    let packet = read(geometry, image, page)?;
    Ok(Written {
        page,
        body: packet.body.to_vec(),
        pointer: packet.pointer,
    })
}

/// The packet of `page` (below N); a length outside n to P - 3 or a wrong check is refusal 2 at that page.
pub(crate) fn read<'a>(
    geometry: &Geometry,
    image: &'a [u8],
    page: usize,
) -> Result<Packet<'a>, Answer> {
    let start = page * geometry.page_length();
    let bytes = &image[start..start + geometry.page_length()];
    let length = usize::from(bytes[0]);
    if length < geometry.number_length() || length > geometry.max_packet_length() {
        return Err(Fault::Packet.at(page));
    }
    let (checked, rest) = bytes.split_at(1 + length);
    if rest[..2] != check_bytes(page as u16, checked) {
        return Err(Fault::Packet.at(page));
    }
    let (body, pointer) = checked[1..].split_at(length - geometry.number_length());
    Ok(Packet {
        body,
        pointer: geometry.number_at(pointer),
    })
}

/// Writes a packet with its check to `page`; only the bytes of the packet change.
pub(crate) fn write(
    geometry: &Geometry,
    image: &mut [u8],
    page: usize,
    body: &[u8],
    pointer: usize,
) {
    let mut packet = vec![(body.len() + geometry.number_length()) as u8];
    packet.extend_from_slice(body);
    packet.extend(geometry.number_bytes(pointer));
    packet.extend(check_bytes(page as u16, &packet));
    let start = page * geometry.page_length();
    image[start..start + packet.len()].copy_from_slice(&packet);
}
