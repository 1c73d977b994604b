//! Requests for a KSM: every flag, good and bad parts, each by itself and together.

use super::tables;
use crate::calls::REQUEST;
use crate::image::filled;
use crate::random::Random;

/// A request, sometimes with faults and seldom of another length.
pub fn request(random: &mut Random) -> Vec<u8> {
    if random.chance(3) {
        return random.bytes(REQUEST);
    }
    let number = if random.chance(8) { random.pick(&[0, 3, 255]) } else { random.pick(&[1, 2]) };
    let mut bytes = with_keys(random, number, 4);
    if random.chance(4) {
        bytes.resize(random.pick(&[0, 1, 26, 51, 72, 73, 75, 148]), b'0');
    }
    bytes
}

/// A request without fault.
pub fn good(random: &mut Random) -> Vec<u8> {
    let number = 1 + random.below(2) as u8;
    with_keys(random, number, 0)
}

/// A request for this number of keys; each part has a fault with this many chances in a hundred.
fn with_keys(random: &mut Random, number: u8, faults: usize) -> Vec<u8> {
    let mut bytes = vec![number];
    let first = key_place(random, faults);
    let mut second = key_place(random, faults);
    if random.chance(2 * faults) {
        second[..8].copy_from_slice(&first[..8]);
    } else if random.chance(faults) {
        second[..8].copy_from_slice(&first[..8]);
        second[7] ^= 1;
        second[8] &= !1;
    }
    bytes.extend(first);
    bytes.extend(second);
    bytes.push(if random.chance(faults) { random.pick(&[3, 4, 255]) } else { random.below(3) as u8 });
    bytes.extend(random.bytes(8));
    bytes.push(if random.chance(faults) { random.pick(&[2, 3, 255]) } else { random.below(2) as u8 });
    bytes.extend(if random.chance(3 * faults) { no_date(random) } else { date(random) });
    bytes.push(if random.chance(faults) { random.pick(&[2, 3, 255]) } else { random.below(2) as u8 });
    bytes
}

/// Key, flags and name; a key to be marked P is odd unless that is the fault.
fn key_place(random: &mut Random, faults: usize) -> Vec<u8> {
    let flags = if random.chance(faults) { random.byte() } else { random.below(8) as u8 };
    let even = random.chance(2 * faults);
    let key = match flags & 1 {
        1 if !even => tables::odd_key(random),
        _ => tables::data_key(random),
    };
    let mut place = key.to_be_bytes().to_vec();
    place.push(flags);
    let name = if random.chance(2 * faults) { tables::loose_name(random) } else { tables::name(random) };
    let mut name = filled(&name);
    if random.chance(faults) {
        name[15] = random.pick(b"A\0 a");
    }
    place.extend(name);
    place
}

fn digits(parts: [usize; 6]) -> Vec<u8> {
    parts.iter().map(|part| format!("{part:02}")).collect::<String>().into_bytes()
}

/// A date, often at the end of a month or a day.
pub fn date(random: &mut Random) -> Vec<u8> {
    if random.chance(10) {
        return digits([random.pick(&[4, 8, 84, 88, 96]), 2, 29, 23, 59, 59]);
    }
    let (year, month) = (random.below(100), 1 + random.below(12));
    let longest = [31, 28, 31, 30, 31, 30, 31, 31, 30, 31, 30, 31][month - 1];
    let any = 1 + random.below(28);
    let day = random.pick(&[1, 28, longest, any]);
    digits([year, month, day, random.pick(&[0, 23, 12]), random.pick(&[0, 59]), random.below(60)])
}

/// Twelve digits that are no date, or twelve bytes that are not digits.
pub fn no_date(random: &mut Random) -> Vec<u8> {
    let mut bytes = date(random);
    let (place, values): (usize, &[&[u8; 2]]) = random.pick(&[
        (2, &[b"00", b"13", b"99"][..]),
        (4, &[b"00", b"32"]),
        (6, &[b"24", b"99"]),
        (8, &[b"60", b"61"]),
        (10, &[b"60", b"99"]),
        (10, &[b" 0", b"5:", b"/0"]),
    ]);
    let value = random.pick(values);
    bytes[place..place + 2].copy_from_slice(value);
    match random.below(4) {
        0 => digits([random.pick(&[0, 1, 83, 85, 90]), 2, 29, 0, 0, 0]),
        1 => digits([84, random.pick(&[4, 6, 9, 11]), 31, 0, 0, 0]),
        _ => bytes,
    }
}
