//! Top keys, their offset, data keys under them, and odd parity.

use crate::des::Schedule;

/// A partner's top key, single or a pair of left and right.
#[derive(Clone, Copy, PartialEq, Eq, Debug)]
pub enum Top {
    Single(u64),
    Pair(u64, u64),
}

/// Whether each of the key's eight bytes has an odd number of ones.
pub fn odd(key: u64) -> bool {
    key.to_be_bytes().iter().all(|byte| byte.count_ones() % 2 == 1)
}

/// The key with the last bit of each byte set so that its parity is odd.
pub fn made_odd(key: u64) -> u64 {
    u64::from_be_bytes(key.to_be_bytes().map(|byte| byte & 0xFE | u8::from((byte & 0xFE).count_ones() % 2 == 0)))
}

pub fn encipher(key: u64, block: u64) -> u64 {
    Schedule::new(key).encipher(block)
}

pub fn decipher(key: u64, block: u64) -> u64 {
    Schedule::new(key).decipher(block)
}

impl Top {
    /// The top key offset by a count, both halves of a pair.
    pub fn offset(self, count: u32) -> Top {
        let count = u64::from(count);
        match self {
            Top::Single(key) => Top::Single(key ^ count),
            Top::Pair(left, right) => Top::Pair(left ^ count, right ^ count),
        }
    }

    /// A data key enciphered under this key: e, or ede under a pair.
    pub fn seal(self, key: u64) -> u64 {
        match self {
            Top::Single(single) => encipher(single, key),
            Top::Pair(left, right) => encipher(left, decipher(right, encipher(left, key))),
        }
    }

    /// The data key that was enciphered: d, or ded under a pair.
    pub fn unseal(self, sealed: u64) -> u64 {
        match self {
            Top::Single(single) => decipher(single, sealed),
            Top::Pair(left, right) => decipher(left, encipher(right, decipher(left, sealed))),
        }
    }

    /// Whether every half in use has odd parity.
    pub fn odd(self) -> bool {
        match self {
            Top::Single(key) => odd(key),
            Top::Pair(left, right) => odd(left) && odd(right),
        }
    }
}
