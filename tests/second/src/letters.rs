//! The letters of ERF as bits, in the order of the report: A lowest, U highest.

pub const ORDER: &[u8; 9] = b"ABFIKMOPU";

/// The bit of one letter of ERF.
pub const fn bit(letter: u8) -> u16 {
    let mut place = 0;
    while ORDER[place] != letter {
        place += 1;
    }
    1 << place
}

pub const F: u16 = bit(b'F');
pub const I: u16 = bit(b'I');
pub const K: u16 = bit(b'K');
pub const M: u16 = bit(b'M');
pub const O: u16 = bit(b'O');
pub const P: u16 = bit(b'P');

/// The letters in alphabetical order.
pub fn shown(letters: u16) -> String {
    let chosen = |place: &usize| letters >> place & 1 == 1;
    (0..9).filter(chosen).map(|place| char::from(ORDER[place])).collect()
}

/// The letters of an ERF: each at most once, in alphabetical order, at least one.
pub fn read(contents: &[u8]) -> Option<u16> {
    let letters = contents.iter().filter_map(|letter| ORDER.iter().position(|known| known == letter));
    let letters = letters.fold(0, |letters, place| letters | 1 << place);
    (letters != 0 && shown(letters).as_bytes() == contents).then_some(letters)
}
