//! Notarization by X9.17's section 7.5: a top key joined with the identities of both ends.

use crate::keys::{encipher, Top};

/// From whom to whom notarized keys go, by the message that carries them.
#[derive(Clone, Copy)]
pub struct Ends<'a> {
    pub originator: &'a [u8],
    pub receiver: &'a [u8],
}

/// The first and the second eight characters of an identity that is replicated to sixteen.
pub fn characters(identity: &[u8]) -> [[u8; 8]; 2] {
    [0, 8].map(|first| std::array::from_fn(|place| identity[(first + place) % identity.len()]))
}

/// A key and eight characters added: a character's seven bits fall on the seven bits of a key byte before its parity.
pub fn plus(key: u64, characters: [u8; 8]) -> u64 {
    key ^ u64::from_be_bytes(characters.map(|character| character << 1))
}

/// How characters are added to a key.
type Adding = fn(u64, [u8; 8]) -> u64;

/// The two parts of the notary seal, left and right, before the count.
pub fn seal(top: Top, ends: Ends, adding: Adding) -> [u64; 2] {
    let ([from_1, from_2], [to_1, to_2]) = (characters(ends.originator), characters(ends.receiver));
    let (for_right, for_left) = match top {
        Top::Single(key) => (key, key),
        Top::Pair(left, right) => (right, left),
    };
    [(adding(for_right, from_1), to_2), (adding(for_left, to_1), from_2)]
        .map(|(key, block)| encipher(key, u64::from_be_bytes(block)))
}

/// The top key with a notary seal added: to a single key the outer halves of the two parts.
pub fn sealed(top: Top, [left_part, right_part]: [u64; 2]) -> Top {
    match top {
        Top::Single(key) => Top::Single(key ^ ((left_part >> 32) << 32 | right_part & 0xFFFF_FFFF)),
        Top::Pair(left, right) => Top::Pair(left ^ left_part, right ^ right_part),
    }
}

/// The notarizing key of a message with this count.
pub fn notarizing(top: Top, ends: Ends, count: u32) -> Top {
    sealed(top, seal(top, ends, plus)).offset(count)
}
