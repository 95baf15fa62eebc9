//! The check of a packet (document 01, "Packet and chain").

/// The polynomial x^16 + x^15 + x^2 + 1 with its bits reversed, since the least significant bit comes first.
const POLYNOMIAL: u16 = 0xA001;

/// The CRC-16 register after `bytes`, started with `start`, not inverted: the bits of each byte go in one by one, the lowest first.
pub fn crc16(start: u16, bytes: &[u8]) -> u16 {
    bytes.iter().fold(start, |register, &byte| {
        (0..8).fold(register, |register, bit| data_bit(register, byte >> bit))
    })
}

/// The register after the lowest bit of `data`: the bit that leaves is that of the register changed by it; if it is 1, the polynomial is
/// subtracted from what was shifted.
fn data_bit(register: u16, data: u8) -> u16 {
    let leaving = (register ^ u16::from(data)) & 1;
    let shifted = register >> 1;
    if leaving == 1 {
        shifted ^ POLYNOMIAL
    } else {
        shifted
    }
}

/// The two check bytes over length byte and data: started with the page number, inverted, low byte first.
pub fn check_bytes(page: u16, packet: &[u8]) -> [u8; 2] {
    (!crc16(page, packet)).to_le_bytes()
}
