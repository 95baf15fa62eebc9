//! Images written page by page.

use crate::crc::check_bytes;
use crate::geometry::Geometry;

/// An image under construction.
#[derive(Clone, Debug)]
pub struct Pages {
    pub geometry: Geometry,
    pub image: Vec<u8>,
}

impl Pages {
    /// An image of zeros; panics if P or N is outside its limits.
    pub fn new(page_length: u32, page_count: u32) -> Pages {
        let geometry = Geometry::new(page_length, page_count).expect("P and N within their limits");
        Pages {
            geometry,
            image: vec![0; geometry.image_length()],
        }
    }

    /// An image with the given bytes; panics if P, N or the length does not fit.
    pub fn of(page_length: u32, page_count: u32, image: &[u8]) -> Pages {
        let mut pages = Pages::new(page_length, page_count);
        pages.image.copy_from_slice(image);
        pages
    }

    /// The bytes of a page.
    pub fn page(&self, page: usize) -> &[u8] {
        let length = self.geometry.page_length();
        &self.image[page * length..(page + 1) * length]
    }

    /// The bytes of a page, to change them.
    pub fn page_mut(&mut self, page: usize) -> &mut [u8] {
        let length = self.geometry.page_length();
        &mut self.image[page * length..(page + 1) * length]
    }

    /// Writes a packet with its right check; bytes after it stay.
    pub fn packet(&mut self, page: usize, body: &[u8], pointer: usize) -> &mut Pages {
        let pointer = self.geometry.number_bytes(pointer);
        let length = body.len() + pointer.len();
        let bytes = self.page_mut(page);
        bytes[0] = length as u8;
        bytes[1..1 + body.len()].copy_from_slice(body);
        bytes[1 + body.len()..1 + length].copy_from_slice(&pointer);
        self.seal(page)
    }

    /// Computes the check of a page's packet again, after its bytes were changed.
    pub fn seal(&mut self, page: usize) -> &mut Pages {
        let bytes = self.page_mut(page);
        let end = 1 + usize::from(bytes[0]);
        let check = check_bytes(page as u16, &bytes[..end]);
        bytes[end..end + 2].copy_from_slice(&check);
        self
    }

    /// Changes bytes of a page and computes its check again; a length byte among them counts as changed.
    pub fn alter(&mut self, page: usize, offset: usize, bytes: &[u8]) -> &mut Pages {
        self.page_mut(page)[offset..offset + bytes.len()].copy_from_slice(bytes);
        self.seal(page)
    }

    /// The body of a page's packet, without its pointer.
    pub fn body(&self, page: usize) -> Vec<u8> {
        let bytes = self.page(page);
        let end = 1 + usize::from(bytes[0]) - self.geometry.number_length();
        bytes[1..end].to_vec()
    }

    /// The pointer of a page's packet.
    pub fn pointer(&self, page: usize) -> usize {
        let bytes = self.page(page);
        let end = 1 + usize::from(bytes[0]);
        self.geometry
            .number_at(&bytes[end - self.geometry.number_length()..end])
    }

    /// Writes the packet again with another pointer.
    pub fn set_pointer(&mut self, page: usize, pointer: usize) -> &mut Pages {
        let body = self.body(page);
        self.packet(page, &body, pointer)
    }

    /// Makes a page's check wrong.
    pub fn break_check(&mut self, page: usize) -> &mut Pages {
        let bytes = self.page_mut(page);
        let end = 1 + usize::from(bytes[0]);
        bytes[end] ^= 0xFF;
        self
    }

    /// The root's control field with a local bitmap in which these pages are marked.
    pub fn local_control(&self, marked: &[usize]) -> Vec<u8> {
        let mut field = vec![self.geometry.marker()];
        field.extend(self.geometry.number_bytes(0));
        field.push(0x80);
        let mut bits = [0; 4];
        for page in marked {
            bits[page / 8] |= 1 << (page % 8);
        }
        field.extend(bits);
        field
    }

    /// The root's control field that places a bitmap file.
    pub fn file_control(&self, start: usize, pages: usize) -> Vec<u8> {
        let mut field = vec![self.geometry.marker()];
        field.extend(self.geometry.number_bytes(0));
        field.push(0);
        field.extend(vec![0; 4 - 2 * self.geometry.number_length()]);
        field.extend(self.geometry.number_bytes(start));
        field.extend(self.geometry.number_bytes(pages));
        field
    }

    /// A subdirectory's control field: marker, name and start page of the next higher directory.
    pub fn sub_control(&self, parent: &str, parent_start: usize) -> Vec<u8> {
        let mut field = vec![self.geometry.marker()];
        field.extend(name(parent));
        field.push(0);
        field.extend(self.geometry.number_bytes(parent_start));
        field
    }

    /// An entry: name, extension byte, start page, number of pages.
    pub fn entry(&self, text: &str, extension: u8, start: usize, pages: usize) -> Vec<u8> {
        let mut entry = name(text).to_vec();
        entry.push(extension);
        entry.extend(self.geometry.number_bytes(start));
        entry.extend(self.geometry.number_bytes(pages));
        entry
    }
}

/// Up to four bytes of text, filled with blanks.
pub fn name(text: &str) -> [u8; 4] {
    let mut name = *b"    ";
    for (place, byte) in name.iter_mut().zip(text.bytes()) {
        *place = byte;
    }
    name
}

/// The path of a file: its directories' names, its name, its extension byte.
pub fn path(directories: &[&str], file: &str, extension: u8) -> Vec<u8> {
    let mut path: Vec<u8> = Vec::new();
    for directory in directories {
        path.extend(name(directory));
    }
    path.extend(name(file));
    path.push(extension);
    path
}
