//! The MAC of ANSI X9.9.

use crate::des::Schedule;

/// The left 32 bits of the last block of chaining from zero over the bytes, zero bytes filling the last block.
pub fn mac(key: u64, bytes: &[u8]) -> u32 {
    let schedule = Schedule::new(key);
    let last = bytes.chunks(8).fold(0, |chained, block| schedule.encipher(chained ^ filled(block)));
    (last >> 32) as u32
}

/// Up to eight bytes as a block, zero bytes at its end.
fn filled(bytes: &[u8]) -> u64 {
    let mut block = [0; 8];
    block[..bytes.len()].copy_from_slice(bytes);
    u64::from_be_bytes(block)
}

/// A MAC as it stands in a message: four hex digits, a blank, four hex digits.
pub fn shown(mac: u32) -> Vec<u8> {
    format!("{:04X} {:04X}", mac >> 16, mac & 0xFFFF).into_bytes()
}
