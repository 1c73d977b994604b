//! Texts to receive: genuine messages of every class, messages with chosen errors, damaged and random ones.

use super::{damage, requests, service, tables};
use crate::calls::{Paper, Steps};
use crate::keys;
use crate::letters;
use crate::mac;
use crate::notary;
use crate::random::Random;
use crate::reader::{KSM_OPTIONS, OPTION_CLASSES, RSI_OPTIONS};
use crate::table::{bare, Entry, Table};
use crate::writer;

/// The two ends of a message, and what the receiver has in its table for the originator.
struct Ends {
    receiver: Vec<u8>,
    originator: Vec<u8>,
    entry: Entry,
}

/// A text for a card with this table.
pub fn text(random: &mut Random, table: &Table) -> Vec<u8> {
    let ends = ends(random, table);
    let text = match random.below(20) {
        0..=8 => ksm(random, &ends),
        9 | 10 => rsm(random, &ends),
        11..=13 => esm(random, &ends),
        14 | 15 => rsi(random, &ends),
        16 | 17 => option(random, &ends),
        18 => damage::soup(random, &ends.receiver, &ends.originator),
        _ => return damage::noise(random),
    };
    if random.chance(18) {
        return damage::damaged(random, text);
    }
    text
}

/// Mostly a partner of the table to us; seldom another receiver, an unknown originator or ourselves.
fn ends(random: &mut Random, table: &Table) -> Ends {
    let entries: Vec<&Entry> = table.entries().collect();
    let entry = match entries.is_empty() {
        true => Entry::loaded(&tables::name(random), &tables::name(random), tables::top(random)),
        false => random.pick(&entries).clone(),
    };
    let receiver = if random.chance(4) { tables::name(random) } else { table.own.clone() };
    let originator = match random.below(30) {
        0 => tables::name(random),
        1 => table.own.clone(),
        _ => entry.identity.clone(),
    };
    Ends { receiver, originator, entry }
}

/// A key message with each of its possible errors chosen by itself.
fn ksm(random: &mut Random, ends: &Ends) -> Vec<u8> {
    let count = received_count(random, ends.entry.expected);
    let faulty = random.chance(40);
    let notarized = random.chance(50);
    let both = notary::Ends { originator: &ends.originator, receiver: &ends.receiver };
    let otherwise = faulty && random.chance(8);
    let top = Paper.working(ends.entry.top, (notarized != otherwise).then_some(both), count);
    let mut text = writer::key_message_head(&ends.receiver, &ends.originator, notarized);
    let number = 1 + random.below(2);
    let equal = random.chance(3);
    let mut bare: Vec<u64> = Vec::new();
    for place in 0..number {
        let marked = random.chance(50);
        let even = faulty && random.chance(12);
        let key = match (place, marked && !even) {
            (1, _) if equal => bare[0],
            (_, true) => tables::odd_key(random),
            _ => tables::data_key(random),
        };
        let own_name = random.chance(50).then(|| tables::name(random));
        let upper_name = random.chance(50).then(|| upper_name(random, &ends.entry, faulty));
        let contents = writer::key_contents(top.seal(key), marked, own_name.as_deref(), upper_name.as_deref());
        writer::field(&mut text, "KD", &contents);
        bare.push(key);
    }
    tail(random, &mut text, &bare, faulty);
    let zero = if faulty && random.chance(3) { "0" } else { "" };
    writer::field(&mut text, "CTP", format!("{zero}{count}").as_bytes());
    let wrong = if faulty && random.chance(40) { 1 << random.below(64) } else { 0 };
    let text = authenticated(text, bare.iter().fold(wrong, |joined, key| joined ^ key), random.chance(2));
    match notarized && random.chance(10) {
        true => damage::misplaced_nos(random, &text),
        false => text,
    }
}

/// The message with its MAC, or with one bit of the MAC changed.
fn authenticated(text: Vec<u8>, key: u64, changed: bool) -> Vec<u8> {
    let mut text = writer::authenticated(text, key);
    if changed {
        let digit = text.len() - 3;
        text[digit] = if text[digit] == b'0' { b'1' } else { b'0' };
    }
    text
}

/// The entry's key name as IDK2, or where faults are wanted another one now and then.
fn upper_name(random: &mut Random, entry: &Entry, faulty: bool) -> Vec<u8> {
    let mut name = entry.name.clone();
    match random.below(12) {
        0 if faulty => tables::name(random),
        1 if faulty && name.len() < 16 => {
            name.push(b'A');
            name
        }
        2 if faulty && name.len() > 1 => {
            name.pop();
            name
        }
        _ => name,
    }
}

/// IV and EDK, each present or not, well-formed but without meaning where faults are wanted.
fn tail(random: &mut Random, text: &mut Vec<u8>, keys: &[u64], faulty: bool) {
    let value = random.number();
    let strange = ["P", "E", "0123456789ABCDEF", "Q0123456789ABCDEF", "P0123456789ABCDE", "E0123456789ABCDEG", "Z"];
    let iv = match random.below(4) {
        0 => format!("P{value:016X}"),
        1 => format!("E{:016X}", keys::encipher(keys[keys.len() - 1], value)),
        2 if faulty => random.pick(&strange).to_string(),
        _ => String::new(),
    };
    if !iv.is_empty() {
        writer::field(text, "IV", iv.as_bytes());
    }
    let date = match random.below(4) {
        0 | 1 => requests::date(random),
        2 if faulty => requests::no_date(random),
        _ => return,
    };
    writer::field(text, "EDK", &date);
}

/// A count around the expected one, or near an end.
fn received_count(random: &mut Random, expected: u32) -> u32 {
    let count = match random.below(12) {
        0 => expected.saturating_sub(1),
        1 => tables::count(random, 1),
        2 => 99_999_999,
        3 => 1,
        4 => expected.saturating_add(1),
        5 => expected.saturating_add(random.below(1_000) as u32),
        _ => expected,
    };
    count.clamp(1, 99_999_999)
}

fn rsm(random: &mut Random, ends: &Ends) -> Vec<u8> {
    let key = bare(&ends.entry.outgoing).iter().fold(0, |joined, key| joined ^ key);
    let wrong = if random.chance(20) { 1 << random.below(64) } else { 0 };
    authenticated(writer::head("RSM", &ends.receiver, &ends.originator), key ^ wrong, random.chance(5))
}

/// An ESM; seldom with its letters out of order, or with counts that do not go with them.
fn esm(random: &mut Random, ends: &Ends) -> Vec<u8> {
    let letters = match random.below(4) {
        0 => letters::P,
        1 => random.pick(&[letters::M, letters::F, letters::I, letters::K, letters::O]),
        _ => 1 + random.below(511) as u16,
    };
    let next_send = ends.entry.next_send;
    let any = tables::count(random, 1);
    let told = random.pick(&[1, next_send, (next_send + 1).min(99_999_999), any, 99_999_999]);
    let mut text = writer::head("ESM", &ends.receiver, &ends.originator);
    let counted = letters & letters::P != 0;
    for (tag, count) in [("CTP", told), ("CTR", tables::count(random, 1))] {
        if counted != random.chance(3) {
            writer::field(&mut text, tag, count.to_string().as_bytes());
        }
    }
    let mut shown = letters::shown(letters).into_bytes();
    match random.below(30) {
        0 => shown.reverse(),
        1 => shown.push(shown[0]),
        _ => {}
    }
    writer::field(&mut text, "ERF", &shown);
    with_code(random, writer::end(text))
}

fn rsi(random: &mut Random, ends: &Ends) -> Vec<u8> {
    let text = writer::rsi(&ends.receiver, &ends.originator, &service(random));
    with_code(random, text)
}

/// Now and then an EDC before the last parenthesis.
fn with_code(random: &mut Random, mut text: Vec<u8>) -> Vec<u8> {
    if random.chance(25) {
        text.pop();
        writer::field(&mut text, "EDC", &mac::shown(random.number() as u32));
        return writer::end(text);
    }
    text
}

/// An option with its rest, some of them of 512 bytes or a few more or less.
fn option(random: &mut Random, ends: &Ends) -> Vec<u8> {
    let (class, tag) = match random.below(3) {
        0 => ("KSM", random.pick(&KSM_OPTIONS)),
        1 => ("RSI", random.pick(&RSI_OPTIONS)),
        _ => (random.pick(&OPTION_CLASSES), ""),
    };
    let mut text = writer::head(class, &ends.receiver, &ends.originator);
    if !tag.is_empty() {
        text.extend(format!("{tag}/").bytes());
    } else if random.chance(30) {
        return writer::end(text);
    }
    let length = match random.below(4) {
        0 => (509 + random.below(5)).saturating_sub(text.len()),
        _ => random.below(40),
    };
    text.extend((0..length).map(|_| random.pick(b"ABZ019 ./*-")));
    text.push(b' ');
    writer::end(text)
}
