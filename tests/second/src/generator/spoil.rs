//! Images that are mostly not legal, each rule broken by itself.

use crate::image;
use crate::random::Random;
use crate::table::Table;

/// Bytes that stand in no name.
const FOREIGN: &[u8] = b"@[/:.-* \0\xFF`{a";

/// Where the parts of a record's body begin.
const NAME: usize = 16;
const FORM: usize = 32;
const TOP: usize = 33;
const NEXT_SEND: usize = 49;
const EXPECTED: usize = 53;
const PHASE: usize = 57;
const OUTGOING: usize = 58;
const INCOMING: usize = 107;

/// The table's image with something wrong.
pub fn image(random: &mut Random, table: &Table) -> Vec<u8> {
    let mut image = image::write(table);
    let records = bodies(table);
    match random.below(12) {
        0 => lengths(random, &mut image),
        1 => image[0] = random.pick(&[0, 2, 3, 255]),
        2 => name(random, &mut image[1..17]),
        3 => kinds(random, &mut image, &records),
        4 => {
            let place = random.below(image.len());
            image[place] ^= 1 << random.below(8);
        }
        5 if !records.is_empty() => identities(random, &mut image, &records),
        _ if !records.is_empty() => {
            let start = random.pick(&records);
            body(random, &mut image[start..start + image::BODY]);
        }
        _ => lengths(random, &mut image),
    }
    image
}

/// Where the bodies of the table's records begin in its image.
fn bodies(table: &Table) -> Vec<usize> {
    let mut place = 17;
    let mut starts = Vec::new();
    for slot in &table.slots {
        place += 1;
        if slot.is_some() {
            starts.push(place);
            place += image::BODY;
        }
    }
    starts
}

fn lengths(random: &mut Random, image: &mut Vec<u8>) {
    match random.below(5) {
        0 => drop(image.pop()),
        1 => image.truncate(random.below(image.len())),
        2 => image.push(random.pick(&[0, 0, 1, 2, b' '])),
        3 => image.extend([0; 157]),
        _ => drop(image.remove(random.below(image.len()))),
    }
}

/// A kind that is none, or the wrong one of the two.
fn kinds(random: &mut Random, image: &mut [u8], records: &[usize]) {
    let place = match records {
        [] => 17 + random.below(64),
        _ => random.pick(records) - 1,
    };
    image[place] = random.pick(&[0, 1, 2, 3, 4, 255]);
}

/// A name's sixteen bytes made malformed: a foreign byte, a leading blank, a blank within, or nothing at all.
fn name(random: &mut Random, bytes: &mut [u8]) {
    match random.below(5) {
        0 => bytes[0] = b' ',
        1 => bytes.fill(b' '),
        2 => bytes.fill(0),
        3 => bytes.copy_from_slice(b"A B             "),
        _ => bytes[random.below(16)] = random.pick(FOREIGN),
    }
}

/// Two records with one identity, or a record with the card's own.
fn identities(random: &mut Random, image: &mut [u8], records: &[usize]) {
    let from = if random.chance(40) { 1 } else { random.pick(records) };
    let to = random.pick(records);
    image.copy_within(from..from + 16, to);
}

fn body(random: &mut Random, body: &mut [u8]) {
    let set = random.pick(&[OUTGOING, INCOMING]);
    match random.below(11) {
        0 => name(random, &mut body[..NAME]),
        1 => name(random, &mut body[NAME..FORM]),
        2 => body[FORM] = random.pick(&[0, 1, 2, 3, 255]),
        3 => body[TOP + random.below(16)] ^= 1 << random.below(8),
        4 => {
            let start = random.pick(&[NEXT_SEND, EXPECTED]);
            let count = random.pick(&[0_u32, 1, 2, 100_000_000, 100_000_001, 1 << 31, u32::MAX]);
            body[start..start + 4].copy_from_slice(&count.to_be_bytes());
        }
        5 => body[PHASE] = random.pick(&[4, 5, 255]),
        6 => body[PHASE] = random.pick(&[0, 1, 2, 3]),
        7 => body[set] = random.pick(&[0, 1, 2, 3, 255]),
        8 => body[set..set + 49].fill(0),
        9 => {
            let place = set + 9 + 24 * random.below(2);
            name(random, &mut body[place..place + 16]);
        }
        _ => {
            let place = set + 1 + random.below(48);
            body[place] = random.pick(&[0, 1, b' ', b'A']);
        }
    }
}
