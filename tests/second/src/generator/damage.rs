//! Texts that went wrong: bytes and fields lost, doubled, exchanged or changed, fields in any order, and noise.

use super::tables;
use crate::random::Random;
use crate::reader::KSM_OPTIONS;
use crate::writer;

const CHARACTERS: &[u8] = b"ABCDEFGHIJKLMNOPQRSTUVWXYZ0123456789 ./*-()";

/// The text with one to three things wrong.
pub fn damaged(random: &mut Random, mut text: Vec<u8>) -> Vec<u8> {
    for _ in 0..random.pick(&[1, 1, 1, 2, 3]) {
        text = once(random, text);
    }
    text
}

fn once(random: &mut Random, mut text: Vec<u8>) -> Vec<u8> {
    if text.is_empty() {
        return vec![random.byte()];
    }
    let place = random.below(text.len());
    match random.below(12) {
        0 => text[place] = random.byte(),
        1 | 2 => text[place] = random.pick(CHARACTERS),
        3 => drop(text.remove(place)),
        4 => text.insert(place, random.pick(CHARACTERS)),
        5 => text.truncate(place),
        6 => text.push(random.pick(b" )\n\0A")),
        7 | 8 => return fields(random, &text),
        9 | 10 => return contents(random, &text),
        _ => text.insert(0, random.pick(b" C(\n")),
    }
    text
}

/// The text with one of its fields lost, doubled or exchanged with its neighbour.
fn fields(random: &mut Random, text: &[u8]) -> Vec<u8> {
    let mut parts: Vec<&[u8]> = text.split_inclusive(|&character| character == b' ').collect();
    let place = random.below(parts.len());
    match random.below(3) {
        0 => drop(parts.remove(place)),
        1 => parts.insert(place, parts[place]),
        _ => {
            let other = (place + 1) % parts.len();
            parts.swap(place, other);
        }
    }
    parts.concat()
}

/// The text with the contents of one field nearly right.
fn contents(random: &mut Random, text: &[u8]) -> Vec<u8> {
    let mut parts: Vec<Vec<u8>> = text.split_inclusive(|&character| character == b' ').map(<[u8]>::to_vec).collect();
    let place = random.below(parts.len());
    let part = &mut parts[place];
    let slash = part.iter().position(|&character| character == b'/').map_or(0, |slash| slash + 1);
    let last = part.len() - 1;
    match random.below(7) {
        0 => part.insert(slash, b'0'),
        1 => part.insert(last, random.pick(b".0AP")),
        2 => part[slash..].make_ascii_lowercase(),
        3 => drop(part.drain(slash.min(last)..last)),
        4 => part.insert(last, b' '),
        5 => part[slash.min(last)..last].reverse(),
        _ => part.insert(slash, random.pick(b"./*-P ")),
    }
    parts.concat()
}

/// A text with NOS before its KD, in which NOS stands otherwise than it may.
pub fn misplaced_nos(random: &mut Random, text: &[u8]) -> Vec<u8> {
    let text = String::from_utf8_lossy(text);
    let Some((head, rest)) = text.split_once("NOS/ ") else {
        return text.into_owned().into_bytes();
    };
    let (key, tail) = rest.split_once(' ').unwrap_or((rest, ""));
    let text = match random.below(7) {
        0 => format!("{head}NOS/ NOS/ {rest}"),
        1 => format!("{head}NOS/{} {rest}", random.pick(&["X", "0", ".", " ", "NOS"])),
        2 => format!("{head}{key} NOS/ {tail}"),
        3 => format!("{head}NOS/ )"),
        4 => format!("{head}NOS/ {}/X {rest}", random.pick(&KSM_OPTIONS)),
        5 => format!("{head}NOS/{rest}"),
        _ => format!("{head}NOS {rest}"),
    };
    text.into_bytes()
}

/// A head and then fields that are each plausible, in any order.
pub fn soup(random: &mut Random, receiver: &[u8], originator: &[u8]) -> Vec<u8> {
    let class = random.pick(&["RSI", "KSM", "RSM", "ESM", "DSM", "ERS", "RFS", "RTR", "ABC", "KS"]);
    let mut text = writer::head(class, receiver, originator);
    for _ in 0..random.below(6) {
        let (tag, contents) = random.pick(&PLAUSIBLE);
        writer::field(&mut text, tag, contents.as_bytes());
    }
    writer::end(text)
}

/// Bytes without any plan, of every length up to some beyond 512.
pub fn noise(random: &mut Random) -> Vec<u8> {
    let length = random.pick(&[0, 1, 4, 5, 40, 511, 512, 513, 600]);
    let mut text: Vec<u8> = match random.below(3) {
        0 => random.bytes(length),
        1 => (0..length).map(|_| random.pick(CHARACTERS)).collect(),
        _ => tables::name(random),
    };
    if random.chance(50) {
        text.splice(0..0, b"CSM(".iter().copied());
        text.push(b')');
    }
    text
}

/// Fields with contents that are legal somewhere, or nearly so.
const PLAUSIBLE: [(&str, &str); 42] = [
    ("SVR", ""),
    ("SVR", "KD.IV"),
    ("SVR", "IV.KD"),
    ("SVR", "*KK"),
    ("KD", "0123456789ABCDEF"),
    ("KD", "0123456789ABCDEF.P"),
    ("KD", "0123456789ABCDEF..P"),
    ("KD", "0123456789ABCDEF...NAME"),
    ("KD", "0123456789ABCDEF.P..NAME"),
    ("KD", "0123456789ABCDEF.P.A.B"),
    ("KD", "0123456789ABCDEF."),
    ("KD", "0123456789ABCDEF.."),
    ("KD", "0123456789ABCDEF..."),
    ("KD", "0123456789ABCDEF.NAME"),
    ("KD", "0123456789ABCDEF.P.A.B.C"),
    ("KD", "0123456789abcdef"),
    ("KD", "0123456789ABCDE"),
    ("IV", "P0123456789ABCDEF"),
    ("IV", "PP0123456789ABCDEF"),
    ("IV", ""),
    ("EDK", "840229235959"),
    ("EDK", "84022923595"),
    ("CTP", "1"),
    ("CTP", "01"),
    ("CTP", "99999999"),
    ("CTP", "100000000"),
    ("CTP", "0"),
    ("CTR", "7"),
    ("CTR", ""),
    ("ERF", "P"),
    ("ERF", "M"),
    ("ERF", "MF"),
    ("ERF", "FF"),
    ("ERF", "ABFIKMOPU"),
    ("ERF", ""),
    ("MAC", "0123 ABCD"),
    ("MAC", "0123ABCD"),
    ("EDC", "0123 ABCD"),
    ("EDC", "0123 abcd"),
    ("IDC", "X-1"),
    ("NOS", ""),
    ("NOS", "X"),
];
