//! Which cards stand on the line and what they share before the first move.

use crate::generator::tables;
use crate::keys::Top;
use crate::random::Random;
use crate::table::{DataKey, Entry, Name, BROKEN};

/// What two cards were loaded with for each other.
pub struct Shared {
    pub cards: [usize; 2],
    pub name: Name,
    pub top: Top,
}

pub struct Setting {
    pub seed: u64,
    pub identities: Vec<Name>,
    pub shared: Vec<Shared>,
    /// The count that every pair begins with; 1 means that the cards are loaded afresh.
    pub count: u32,
}

impl Setting {
    /// The setting that follows from the seed: two or three cards, mostly just loaded, else with few counts left.
    pub fn new(seed: u64) -> Setting {
        let mut random = Random::new(seed);
        let number = 2 + random.below(2);
        let identities = (0..number).map(|card| identity(&mut random, card)).collect();
        let pairs: &[[usize; 2]] = if number == 2 { &[[0, 1]] } else { &[[0, 1], [0, 2], [1, 2]] };
        let share = |cards: &[usize; 2]| Shared {
            cards: *cards,
            name: tables::name(&mut random),
            top: tables::top(&mut random),
        };
        let shared = pairs.iter().map(share).collect();
        let count = if random.chance(75) { 1 } else { 99_999_999 - random.below(40) as u32 };
        Setting { seed, identities, shared, count }
    }

    /// Two just loaded cards with these identities, a pair of keys between them.
    pub fn named(identities: [&str; 2]) -> Setting {
        let identities = identities.map(|identity| identity.as_bytes().to_vec()).to_vec();
        let top = Top::Pair(0x0123_4567_89AB_CDEF, 0xFEDC_BA98_7654_3210);
        let shared = vec![Shared { cards: [0, 1], name: b"LINE1".to_vec(), top }];
        Setting { seed: 0, identities, shared, count: 1 }
    }
}

/// A name that ends in the card's own letter, so that no two are alike.
fn identity(random: &mut Random, card: usize) -> Name {
    let mut identity = tables::name(random);
    identity.truncate(15);
    identity.push(b'A' + card as u8);
    identity
}

/// A partner's entry after an exchange that broke, so that both counts stand at `count`.
pub fn worn(entry: &Entry, count: u32) -> Entry {
    let incoming = vec![DataKey { key: u64::from(count), name: None }];
    Entry { next_send: count, expected: count, phase: BROKEN, incoming, ..entry.clone() }
}
