//! Calls on generated input: legal and illegal images, genuine and damaged texts, every flag of a request, tight rooms.

mod damage;
pub mod requests;
mod spoil;
pub mod tables;
mod texts;

use crate::case::{Call, Case, REPORT};
use crate::image;
use crate::random::Random;
use crate::reader::SERVICES;
use crate::table::{Table, SLOTS};

/// How often each call is tried, in parts of the sum.
const WEIGHTS: [(Call, usize); 8] = [
    (Call::Receive, 46),
    (Call::BuildKsm, 22),
    (Call::BuildRsi, 6),
    (Call::Ask, 4),
    (Call::Start, 2),
    (Call::Load, 9),
    (Call::Remove, 4),
    (Call::GiveUp, 7),
];

/// The case that follows from this seed.
pub fn case(seed: u64) -> Case {
    let mut random = Random::new(seed);
    let call = which(random.below(WEIGHTS.iter().map(|(_, weight)| weight).sum()));
    let full = call == Call::Load && random.chance(20);
    let table = if full { tables::of(&mut random, SLOTS) } else { tables::table(&mut random) };
    let slices = call.lent().iter().map(|name| slice(&mut random, &table, call, name)).collect();
    Case { call, slices }
}

/// The call that this number falls to by the weights.
fn which(number: usize) -> Call {
    let mut left = number;
    for (call, weight) in WEIGHTS {
        if left < weight {
            return call;
        }
        left -= weight;
    }
    Call::Receive
}

fn slice(random: &mut Random, table: &Table, call: Call, name: &str) -> Vec<u8> {
    match name {
        "image" if random.chance(8) => spoil::image(random, table),
        "image" => image::write(table),
        "text" => texts::text(random, table),
        "partner" if call == Call::Load => newcomer(random, table),
        "partner" => partner(random, table),
        "own" => tables::loose_name(random),
        "name" if random.chance(70) => tables::name(random),
        "name" => tables::loose_name(random),
        "key" => top_key(random),
        "request" => requests::request(random),
        "service" => service(random),
        "reply" => reply_room(random),
        "out" => out_room(random),
        _ => random.bytes(REPORT),
    }
}

/// An identity as the host may name it: mostly a partner's, else a near miss, our own or a malformed one.
fn partner(random: &mut Random, table: &Table) -> Vec<u8> {
    let known: Vec<_> = table.entries().map(|entry| entry.identity.clone()).collect();
    match random.below(20) {
        0 => tables::loose_name(random),
        1 => table.own.clone(),
        2 if !known.is_empty() => image::filled(&random.pick(&known)),
        3 if !known.is_empty() => near(random, &known),
        _ if !known.is_empty() => random.pick(&known),
        _ => tables::name(random),
    }
}

/// An identity one character longer or shorter than a partner's, or one that differs in its last character.
fn near(random: &mut Random, known: &[Vec<u8>]) -> Vec<u8> {
    let mut identity = random.pick(known);
    match random.below(3) {
        0 => identity.push(b'A'),
        1 => drop(identity.pop()),
        _ => {
            identity.pop();
            identity.push(b'Z');
        }
    }
    identity
}

/// An identity to load: mostly a new one, else one that is taken, our own or malformed.
fn newcomer(random: &mut Random, table: &Table) -> Vec<u8> {
    match random.below(10) {
        0 => partner(random, table),
        1 => table.own.clone(),
        2 => tables::loose_name(random),
        _ => tables::name(random),
    }
}

/// A top key: mostly 8 or 16 bytes of odd parity, else another length or one bit of parity wrong.
fn top_key(random: &mut Random) -> Vec<u8> {
    let length = if random.chance(15) { random.pick(&[0, 7, 9, 15, 17, 24]) } else { random.pick(&[8, 16]) };
    let halves = [tables::odd_key(random).to_be_bytes(), tables::odd_key(random).to_be_bytes(), [1; 8]].concat();
    let mut key = halves[..length].to_vec();
    if random.chance(15) && length > 0 {
        let place = random.below(length);
        key[place] ^= 1 << random.below(8);
    }
    key
}

/// Contents for SVR: the twelve legal ones, near misses, and others.
fn service(random: &mut Random) -> Vec<u8> {
    let near = ["IV.KD", "KD.", ".KD", "KK.KK", "KD.KD", "*", "kd", "*KD", "KK.*KK", "KD.IV.", "KK..IV", " ", "KD.IV "];
    match random.below(8) {
        0 => random.pick(&near).as_bytes().to_vec(),
        1 => tables::loose_name(random),
        _ => random.pick(&SERVICES).as_bytes().to_vec(),
    }
}

/// A reply buffer of random bytes, its length around 256 where it is not simply enough.
fn reply_room(random: &mut Random) -> Vec<u8> {
    let length = match random.below(30) {
        0 => random.pick(&[0, 1, 155, 156, 254, 255]),
        1 => 255,
        2 | 3 => 257,
        4 => random.below(256),
        5 | 6 => 256 + random.below(300),
        _ => 256,
    };
    random.bytes(length)
}

/// A buffer for an image, its length around 10,065.
fn out_room(random: &mut Random) -> Vec<u8> {
    let length = match random.below(24) {
        0 => random.pick(&[0, 1, 80, 81, 82, 256, 5_000]),
        1 => image::LARGEST - 1,
        2 | 3 => image::LARGEST + 1,
        4 => image::LARGEST + random.below(100),
        _ => image::LARGEST,
    };
    random.bytes(length)
}
