//! Receive: 13, 6, 1, 2, 3, then by class.

use super::{lent_table, notary_words, refuse, reply_room, Done, Refusal, Steps, NO_PARTNER};
use crate::case::Case;
use crate::keys::{self, Top};
use crate::letters;
use crate::mac;
use crate::reader::{self, Body, KeyMessage, Message, SERVICES};
use crate::report::Report;
use crate::table::{bare, DataKey, Entry, CONFIRMED};
use crate::writer;

pub fn receive(steps: &dyn Steps, case: &Case) -> Result<Done, Refusal> {
    let mut table = lent_table(case)?;
    reply_room(case)?;
    let message = reader::read(case.slice("text")).ok_or(Refusal(1, "no message"))?;
    refuse(message.receiver != table.own, 2, "RCV is not us")?;
    let entry = table.entry_mut(message.originator).ok_or(NO_PARTNER)?;
    let done = by_class(steps, &message, entry)?;
    Ok(Done { table: Some(table), ..done })
}

fn by_class(steps: &dyn Steps, message: &Message, entry: &mut Entry) -> Result<Done, Refusal> {
    match &message.body {
        Body::Rsi { service } => Ok(taken(
            format!("RSI SVR/{}", SERVICES[*service]),
            Vec::new(),
            Report { class: 1, service: *service as u8 + 1, ..Report::default() },
        )),
        Body::Unimplemented { option } => Ok(error(message, option, letters::O, None)),
        Body::Ksm(key_message) => Ok(receive_ksm(steps, message, key_message, entry)),
        Body::Rsm { mac } => receive_rsm(steps, message, *mac, entry),
        Body::Esm { counts, letters } => {
            refuse(!steps.takes_esm(entry.phase), 5, "ESM while nothing is waiting")?;
            let raised = steps.send_after_esm(entry.next_send, counts.map(|(told, _)| told));
            let what = if raised > entry.next_send { "ESM that raises the send count" } else { "ESM" };
            entry.next_send = raised;
            steps.broken_by_esm(entry);
            let report = Report { class: 4, letters: *letters, ..Report::default() };
            Ok(taken(what.to_string(), Vec::new(), report))
        }
    }
}

/// Answer 0 with this reply.
fn taken(what: String, reply: Vec<u8>, report: Report) -> Done {
    let report = Report { length: reply.len(), ..report };
    Done { answer: 0, what, table: None, written: reply, report }
}

/// Answer 4 with its ESM.
fn error(message: &Message, class: &str, letters: u16, counts: Option<(u32, u32)>) -> Done {
    let reply = writer::esm(message.originator, message.receiver, counts, letters);
    let what = format!("{class}: {}", letters::shown(letters));
    Done { answer: 4, ..taken(what, reply, Report { letters, ..Report::default() }) }
}

fn receive_rsm(steps: &dyn Steps, message: &Message, given: u32, entry: &mut Entry) -> Result<Done, Refusal> {
    refuse(!steps.takes_rsm(entry.phase), 5, "RSM while nothing is waiting")?;
    if mac::mac(steps.mac_key(&bare(&entry.outgoing)), message.covered) != given {
        return Ok(error(message, "RSM", letters::M, None));
    }
    entry.phase = CONFIRMED;
    Ok(taken("RSM".to_string(), Vec::new(), Report { class: 3, ..Report::default() }))
}

fn receive_ksm(steps: &dyn Steps, message: &Message, given: &KeyMessage, entry: &mut Entry) -> Done {
    let class = if given.notarized { "KSM with NOS" } else { "KSM" };
    if given.keys.iter().any(|key| key.upper_name.is_some_and(|name| name != entry.name)) {
        return error(message, class, letters::I, None);
    }
    let ends = given.notarized.then(|| steps.received_ends(message.originator, message.receiver));
    let top = steps.working(entry.top, ends, steps.offset_count(entry.expected, given.count));
    let keys: Vec<u64> = given.keys.iter().map(|key| top.unseal(key.sealed)).collect();
    if given.keys.iter().zip(&keys).any(|(field, key)| field.marked && !keys::odd(*key)) {
        return error(message, class, letters::K, None);
    }
    let found = judged(steps, message, given, &keys, entry.expected);
    if found != 0 {
        let counts = (found & letters::P != 0).then(|| steps.told_counts(entry.expected, given.count));
        steps.after_error(entry, given.count);
        return error(message, class, found, counts);
    }
    let named =
        |(key, field): (&u64, &reader::KeyField)| DataKey { key: *key, name: field.own_name.map(<[u8]>::to_vec) };
    entry.incoming = keys.iter().zip(&given.keys).map(named).collect();
    entry.expected = steps.expected_after(given.count);
    let reply = writer::rsm(message.originator, message.receiver, steps.mac_key(&keys));
    let iv = given.iv.and_then(|iv| value_of(iv, steps.iv_key(&keys)));
    let report = Report { class: 2, iv, date: given.date.map(<[u8]>::to_vec), ..Report::default() };
    taken(kind(given, entry.top), reply, report)
}

/// The letters out of F, M and P that hold.
fn judged(steps: &dyn Steps, message: &Message, given: &KeyMessage, keys: &[u64], expected: u32) -> u16 {
    let no_iv = given.iv.is_some_and(|iv| value_of(iv, 0).is_none());
    let no_date = given.date.is_some_and(|date| !steps.is_date(date));
    let differs = mac::mac(steps.mac_key(keys), message.covered) != given.mac;
    let held = [
        (no_iv || no_date, letters::F),
        (differs, letters::M),
        (steps.count_refused(expected, given.count), letters::P),
    ];
    held.iter().filter(|(holds, _)| *holds).fold(0, |found, (_, letter)| found | letter)
}

/// The IV's value: after P as it stands, after E deciphered; none unless 16 hex digits follow.
fn value_of(contents: &[u8], key: u64) -> Option<u64> {
    let (&mark, digits) = contents.split_first()?;
    let value = reader::hexadecimal(digits).filter(|_| digits.len() == 16)?;
    match mark {
        b'P' => Some(value),
        b'E' => Some(keys::decipher(key, value)),
        _ => None,
    }
}

/// What an accepted key message carried, in words.
fn kind(given: &KeyMessage, top: Top) -> String {
    let iv = match given.iv {
        Some([b'P', ..]) => ", IV plain",
        Some(_) => ", IV enciphered",
        None => "",
    };
    let date = if given.date.is_some() { ", EDK" } else { "" };
    let keys = if given.keys.len() == 1 { "one key" } else { "two keys" };
    format!("KSM of {keys}{iv}{date}{}", notary_words(given.notarized, top))
}
