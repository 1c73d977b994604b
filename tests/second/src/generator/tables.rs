//! Legal tables of 0 to 64 partners in every phase, with counts near both ends.

use crate::keys::{made_odd, Top};
use crate::random::Random;
use crate::reader::LARGEST_COUNT;
use crate::table::{DataKey, Entry, Name, Table, BROKEN, CONFIRMED, IDLE, SLOTS, WAITING};

/// A name of 1 to 16 characters, often out of few letters so that names begin alike.
pub fn name(random: &mut Random) -> Name {
    let length = random.pick(&[1, 2, 3, 4, 6, 8, 15, 16, 16]);
    let characters: &[u8] = random.pick(&[&b"AB"[..], b"MILHARBO", b"ABCDEFGHIJKLMNOPQRSTUVWXYZ0123456789"]);
    (0..length).map(|_| random.pick(characters)).collect()
}

/// Mostly a name; else bytes that are none.
pub fn loose_name(random: &mut Random) -> Name {
    match random.below(12) {
        0 => Vec::new(),
        1 => vec![b'A'; 17],
        2 => b"mill".to_vec(),
        3 => [name(random), b" ".to_vec()].concat(),
        4 => {
            let mut broken = name(random);
            let place = random.below(broken.len());
            broken[place] = random.pick(b"@[/:.-* \0\xFF`{a");
            broken
        }
        5 => {
            let length = random.below(40);
            random.bytes(length)
        }
        _ => name(random),
    }
}

pub fn odd_key(random: &mut Random) -> u64 {
    made_odd(random.number())
}

/// A data key: of odd parity or of any, seldom one with all bits alike.
pub fn data_key(random: &mut Random) -> u64 {
    match random.below(10) {
        0 => random.pick(&[0, u64::MAX]),
        1..=4 => random.number(),
        _ => odd_key(random),
    }
}

/// A count from `least` on, near both ends and near the places where its offset matters.
pub fn count(random: &mut Random, least: u32) -> u32 {
    let low = [1, 2, 3, 4, 5, 9, 10, 255, 256, 257, 258, 65_535, 65_536, 99_999, 100_000, 9_999_999, 10_000_000];
    let chosen = match random.below(4) {
        0 => LARGEST_COUNT - random.below(4) as u32,
        1 => 1 + random.below(LARGEST_COUNT as usize) as u32,
        _ => random.pick(&low),
    };
    chosen.max(least)
}

fn key_set(random: &mut Random) -> Vec<DataKey> {
    let number = 1 + random.below(2);
    let mut keys: Vec<DataKey> = (0..number).map(|_| named_key(random)).collect();
    if number == 2 && random.chance(10) {
        keys[1].key = keys[0].key;
    }
    keys
}

fn named_key(random: &mut Random) -> DataKey {
    let named = random.chance(60);
    DataKey { key: data_key(random), name: named.then(|| name(random)) }
}

pub fn top(random: &mut Random) -> Top {
    let (left, right) = (odd_key(random), odd_key(random));
    match random.below(9) {
        0 => Top::Pair(left, left),
        1..=4 => Top::Single(left),
        _ => Top::Pair(left, right),
    }
}

/// A legal entry with this identity.
fn entry(random: &mut Random, identity: &[u8]) -> Entry {
    let (key_name, top) = (name(random), top(random));
    let mut entry = Entry::loaded(identity, &key_name, top);
    entry.phase = random.pick(&[IDLE, WAITING, WAITING, CONFIRMED, BROKEN]);
    if entry.phase != IDLE {
        entry.next_send = count(random, 2);
    }
    if [WAITING, CONFIRMED].contains(&entry.phase) {
        entry.outgoing = key_set(random);
    }
    entry.expected = count(random, 1);
    if entry.expected > 1 {
        entry.incoming = key_set(random);
    }
    entry
}

/// Different identities, the first of them for the card itself.
fn identities(random: &mut Random, number: usize) -> Vec<Name> {
    let mut chosen: Vec<Name> = Vec::new();
    while chosen.len() < number {
        let identity = name(random);
        if !chosen.contains(&identity) {
            chosen.push(identity);
        }
    }
    chosen
}

/// A legal table; small ones are commoner, being quicker to lend.
pub fn table(random: &mut Random) -> Table {
    let partners = match random.below(10) {
        0 => random.below(SLOTS + 1),
        1 => random.pick(&[0, 63, 64]),
        _ => random.pick(&[0, 1, 1, 2, 2, 3, 4]),
    };
    of(random, partners)
}

/// A legal table with this number of partners: in the first slots or the last, some of them out of order.
pub fn of(random: &mut Random, partners: usize) -> Table {
    let identities = identities(random, partners + 1);
    let mut table = Table::empty(&identities[0]);
    let first = random.pick(&[0, 0, SLOTS - partners]);
    let entries = identities[1..].iter().map(|identity| Some(entry(random, identity)));
    table.slots.splice(first..first + partners, entries);
    for _ in 0..random.below(4) {
        table.slots.swap(random.below(SLOTS), random.below(SLOTS));
    }
    table
}
