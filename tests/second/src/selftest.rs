//! This program held to published answers and to document 01's numbers before it judges anything else.

use crate::calls::{judge, Paper};
use crate::case::{Call, Case, REPORT};
use crate::date::is_date;
use crate::generator::tables;
use crate::image;
use crate::keys::{decipher, encipher, odd, Top};
use crate::mac::mac;
use crate::notary::{self, Ends};
use crate::random::Random;
use crate::reader::{self, hexadecimal, Body, SERVICES};
use crate::table::{DataKey, Entry, Table};
use crate::writer;

const KEY: u64 = 0x0123_4567_89AB_CDEF;

/// The answers of NBS SP 500-20.
const VARIABLE_PLAINTEXT: &str = include_str!("../../vectors/variable-plaintext.txt");
const VARIABLE_KEY: &str = include_str!("../../vectors/variable-key.txt");
const PERMUTATION: &str = include_str!("../../vectors/permutation-operation.txt");
const SUBSTITUTION: &str = include_str!("../../vectors/substitution-table.txt");

/// Data keys under notarizing keys, made with an independent library.
const NOTARIZED: &str = include_str!("../../vectors/notarized.txt");

/// How many checks held, or the first that did not.
pub fn run() -> Result<usize, String> {
    let mut checks = published();
    checks.extend(notarized());
    checks.extend(numbers());
    checks.extend(counts());
    checks.extend(lengths());
    checks.extend((0..200).map(|seed| (format!("an image read back, table {seed}"), reads_back(seed))));
    match checks.iter().find(|(_, holds)| !holds) {
        Some((what, _)) => Err(format!("selftest: {what}")),
        None => Ok(checks.len()),
    }
}

type Checks = Vec<(String, bool)>;

fn check(what: &str, holds: bool) -> (String, bool) {
    (what.to_string(), holds)
}

/// The words of each line that is no comment.
fn lines(text: &str) -> impl Iterator<Item = Vec<&str>> {
    text.lines().filter(|line| !line.starts_with('#') && !line.is_empty()).map(|line| line.split(' ').collect())
}

/// The numbers of each line that is no comment.
fn rows(text: &str) -> Vec<Vec<u64>> {
    lines(text).map(|words| words.iter().filter_map(|word| hexadecimal(word.as_bytes())).collect()).collect()
}

fn published() -> Checks {
    let mut answers: Vec<(u64, u64, u64)> = vec![(KEY, u64::from_be_bytes(*b"Now is t"), 0x3FA4_0E8A_984D_4815)];
    let plaintext = rows(VARIABLE_PLAINTEXT);
    answers.extend(plaintext.iter().enumerate().map(|(bit, row)| (0x0101_0101_0101_0101, 1 << (63 - bit), row[0])));
    let bits = (0..64).filter(|bit| bit % 8 != 7);
    answers.extend(bits.zip(rows(VARIABLE_KEY)).map(|(bit, row)| (1 << (63 - bit), 0, row[0])));
    answers.extend(rows(PERMUTATION).iter().map(|row| (row[0], 0, row[1])));
    answers.extend(rows(SUBSTITUTION).iter().map(|row| (row[0], row[1], row[2])));
    let holds =
        |(key, block, answer): &(u64, u64, u64)| encipher(*key, *block) == *answer && decipher(*key, *answer) == *block;
    let shown = |answer: &(u64, u64, u64)| (format!("DEA answer {:016X}", answer.2), holds(answer));
    let mut checks: Checks = answers.iter().map(shown).collect();
    checks.push(check("172 answers of the DEA", answers.len() == 172));
    checks.push(check("the MAC of FIPS 113", mac(KEY, b"7654321 Now is the time for ") == 0xF1D3_0F68));
    checks
}

/// Whether a line of the known answers holds, sealed and unsealed.
fn notarized_line(words: &[&str]) -> Option<bool> {
    let [left, right, originator, receiver, count, key, answer] = *words else {
        return None;
    };
    let number = |word: &str| hexadecimal(word.as_bytes());
    let top = match right {
        "-" => Top::Single(number(left)?),
        _ => Top::Pair(number(left)?, number(right)?),
    };
    let ends = Ends { originator: originator.as_bytes(), receiver: receiver.as_bytes() };
    let working = notary::notarizing(top, ends, count.parse().ok()?);
    let (key, answer) = (number(key)?, number(answer)?);
    Some(working.seal(key) == answer && working.unseal(answer) == key)
}

/// The halves that section 7.5 shows, and the known answers.
fn notarized() -> Checks {
    let halves = [("CITYB", ["CITYBCIT", "YBCITYBC"]), ("MANHAN", ["MANHANMA", "NHANMANH"])];
    let holds = |(identity, halves): &(&str, [&str; 2])| {
        notary::characters(identity.as_bytes()).map(|half| half.to_vec()) == halves.map(|half| half.as_bytes().to_vec())
    };
    let mut checks: Checks = halves.iter().map(|row| (format!("halves of {}", row.0), holds(row))).collect();
    checks.extend(
        lines(NOTARIZED).map(|words| (format!("notarized: {}", words.join(" ")), notarized_line(&words) == Some(true))),
    );
    checks.push(check("80 notarized keys", lines(NOTARIZED).count() == 80));
    checks
}

/// Document 01's numbers on parity, offset, dates and services.
fn numbers() -> Checks {
    let odd_byte = |byte: u64| odd(0x0101_0101_0101_0100 | byte);
    let serves = |service: &str| SERVICES.contains(&service);
    vec![
        check("0123456789ABCDEF is odd", odd(KEY)),
        check("bytes 03 and 00 are even, FE is odd", !odd_byte(3) && !odd_byte(0) && odd_byte(0xFE)),
        check("offset by 258", Top::Single(KEY).offset(258) == Top::Single(0x0123_4567_89AB_CCED)),
        check("offset of both halves", Top::Pair(KEY, 0).offset(258) == Top::Pair(0x0123_4567_89AB_CCED, 258)),
        check("sealed and unsealed", Top::Pair(KEY, 7).unseal(Top::Pair(KEY, 7).seal(99)) == 99),
        check("840229235959 is a date", is_date(b"840229235959")),
        check("850229000000 is no date", !is_date(b"850229000000")),
        check("000229000000 is no date", !is_date(b"000229000000")),
        check("KD.IV is a legal SVR", serves("KD.IV")),
        check("IV.KD is no legal SVR", !serves("IV.KD")),
    ]
}

/// The card HARBOR with its partner MILL, from whom it expects this count.
fn harbor(expected: u32) -> Table {
    let mut table = Table::empty(b"HARBOR");
    let incoming = vec![DataKey { key: 1, name: None }];
    table.slots[0] = Some(Entry { expected, incoming, ..Entry::loaded(b"MILL", b"TOP", Top::Single(KEY)) });
    table
}

/// The answer to a genuine key message with this count, its letters, and the expected count after it.
fn receive_count(expected: u32, count: u32) -> (u32, u16, Option<u32>) {
    let mut text = writer::head("KSM", b"HARBOR", b"MILL");
    let sealed = Top::Single(KEY).offset(count).seal(0x1122_3344_5566_7788);
    writer::field(&mut text, "KD", &writer::key_contents(sealed, false, None, None));
    writer::field(&mut text, "CTP", count.to_string().as_bytes());
    let text = writer::authenticated(text, 0x1122_3344_5566_7788);
    let slices = vec![image::write(&harbor(expected)), text, vec![0; 256], vec![0; REPORT]];
    let outcome = judge(&Paper, &Case { call: Call::Receive, slices }).0;
    let after = image::read(&outcome.slices[0]).ok().and_then(|table| table.entry(b"MILL").map(|entry| entry.expected));
    (outcome.answer, outcome.letters(), after)
}

/// Document 01's numbers on counts.
fn counts() -> Checks {
    let p = crate::letters::P;
    let wanted = [
        (5, 5, (0, 0, Some(6))),
        (5, 7, (0, 0, Some(8))),
        (5, 4, (4, p, Some(5))),
        (99_999_998, 99_999_998, (0, 0, Some(99_999_999))),
        (99_999_998, 99_999_999, (4, p, Some(99_999_998))),
        (99_999_999, 99_999_999, (4, p, Some(99_999_999))),
    ];
    let shown = |(expected, count, outcome): &(u32, u32, _)| {
        (format!("expected {expected} and count {count}"), receive_count(*expected, *count) == *outcome)
    };
    wanted.iter().map(shown).collect()
}

/// Document 01's lengths: the longest KSM without and with NOS, an RSM and what its MAC covers, the lister's line, the
/// largest image.
fn lengths() -> Checks {
    let name = [b'A'; 16];
    let contents = writer::key_contents(0, true, Some(&name), Some(&name));
    let fields =
        [("KD", &contents[..]), ("KD", &contents), ("IV", &[b'P'; 17]), ("EDK", &[b'0'; 12]), ("CTP", b"99999998")];
    let longest = |notarized: bool| {
        let mut text = writer::key_message_head(&name, &[b'B'; 16], notarized);
        fields.iter().for_each(|(tag, contents)| writer::field(&mut text, tag, contents));
        let text = writer::authenticated(text, KEY);
        reader::read(&text).map(|_| text.len())
    };
    let rsm = writer::rsm(b"HARBOR", b"MILL", KEY);
    let covered = reader::read(&rsm).map(|message| message.covered.len());
    let line = b"CSM(MCL/RSI RCV/HARBOR ORG/MILL SVR/KD.IV )";
    let read = reader::read(line).is_some_and(|message| matches!(message.body, Body::Rsi { service: 3 }));
    let mut full = Table::empty(b"HARBOR");
    let names = (0..64).map(|slot| format!("P{slot}").into_bytes());
    full.slots = names.map(|identity| Some(Entry::loaded(&identity, b"TOP", Top::Single(KEY)))).collect();
    vec![
        check("longest KSM, and with NOS", longest(false) == Some(232) && longest(true) == Some(237)),
        check("RSM from MILL to HARBOR", rsm.len() == 47 && covered == Some(28)),
        check("the lister's line", line.len() == 43 && read),
        check(
            "largest image",
            image::write(&full).len() == image::LARGEST && image::read(&image::write(&full)) == Ok(full),
        ),
    ]
}

/// Whether a generated table is legal and comes back from its image.
fn reads_back(seed: u64) -> bool {
    let table = tables::table(&mut Random::new(seed));
    image::read(&image::write(&table)) == Ok(table)
}
