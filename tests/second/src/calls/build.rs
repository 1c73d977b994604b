//! Build a KSM: 13, 6, 3, 7, 8, 11, 12. Build an RSI: 13, 6, 3, 12.

use super::{lent_table, notary_words, refuse, reply_room, Done, Refusal, Steps, NO_PARTNER};
use crate::case::Case;
use crate::image;
use crate::keys::{self, Top};
use crate::notary::Ends;
use crate::reader::{LARGEST_COUNT, SERVICES};
use crate::table::{DataKey, Entry, Name, WAITING};
use crate::writer;

/// One key place of a request: key 8, flags 1 (P, IDK1, IDK2), name 16.
pub struct Wanted {
    key: u64,
    flags: u8,
    name: Vec<u8>,
}

/// A request's 74 bytes: number of keys 1, two key places, IV kind 1, IV 8, date flag 1, date 12, notarized 1.
pub struct Request {
    keys: Vec<Wanted>,
    iv_kind: u8,
    iv: u64,
    date_flag: u8,
    date: Vec<u8>,
    notarized: u8,
}

const PLACE: usize = 25;
pub const REQUEST: usize = 1 + 2 * PLACE + 9 + 13 + 1;

fn number(bytes: &[u8]) -> u64 {
    bytes.iter().fold(0, |number, &byte| number << 8 | u64::from(byte))
}

impl Wanted {
    fn read(place: &[u8]) -> Wanted {
        Wanted { key: number(&place[..8]), flags: place[8], name: place[9..].to_vec() }
    }

    fn marked(&self) -> bool {
        self.flags & 1 != 0
    }

    /// The name that is written as IDK1, if one is: a well-formed name or none within the brackets.
    fn own_name(&self) -> Option<Option<Name>> {
        (self.flags & 2 != 0).then(|| image::unfilled(&self.name))
    }
}

/// The request, with no keys where none is used, or 12 where its bytes are not 74.
fn read(bytes: &[u8]) -> Result<Request, Refusal> {
    refuse(bytes.len() != REQUEST, 12, "request not of 74 bytes")?;
    let used = if bytes[0] <= 2 { usize::from(bytes[0]) } else { 0 };
    let tail = &bytes[1 + 2 * PLACE..];
    Ok(Request {
        keys: bytes[1..].chunks(PLACE).take(used).map(Wanted::read).collect(),
        iv_kind: tail[0],
        iv: number(&tail[1..9]),
        date_flag: tail[9],
        date: tail[10..22].to_vec(),
        notarized: tail[22],
    })
}

/// 11, then 12.
fn check(steps: &dyn Steps, request: &Request, number: u8) -> Result<(), Refusal> {
    refuse(request.keys.iter().any(|key| key.marked() && !keys::odd(key.key)), 11, "key to be marked P")?;
    refuse(number == 0, 12, "no key")?;
    refuse(number > 2, 12, "more than two keys")?;
    refuse(request.keys.len() == 2 && request.keys[0].key == request.keys[1].key, 12, "two equal keys")?;
    refuse(request.keys.iter().any(|key| key.flags > 7), 12, "flag of a key")?;
    refuse(request.keys.iter().any(|key| key.own_name() == Some(None)), 12, "name of a key")?;
    refuse(request.iv_kind > 2, 12, "kind of IV")?;
    refuse(request.date_flag > 1, 12, "flag of the date")?;
    refuse(request.date_flag == 1 && !steps.is_date(&request.date), 12, "date")?;
    refuse(request.notarized > 1, 12, "flag of NOS")
}

pub fn build_ksm(steps: &dyn Steps, case: &Case) -> Result<Done, Refusal> {
    let mut table = lent_table(case)?;
    reply_room(case)?;
    let own = table.own.clone();
    let entry = table.entry_mut(case.slice("partner")).ok_or(NO_PARTNER)?;
    refuse(entry.phase == WAITING, 7, "already waiting")?;
    refuse(entry.next_send == LARGEST_COUNT, 8, "count spent")?;
    let bytes = case.slice("request");
    let request = read(bytes)?;
    check(steps, &request, bytes[0])?;
    let what = format!("{} from phase {}", kind(&request, entry.top), entry.phase);
    let written = text(steps, &own, entry, &request);
    entry.outgoing = request.keys.iter().map(|key| DataKey { key: key.key, name: key.own_name().flatten() }).collect();
    entry.next_send += 1;
    entry.phase = WAITING;
    Ok(Done { table: Some(table), ..Done::wrote(&what, written) })
}

fn text(steps: &dyn Steps, own: &[u8], entry: &Entry, request: &Request) -> Vec<u8> {
    let count = steps.sent_count(entry.next_send);
    let notarized = request.notarized == 1;
    let ends = Ends { originator: own, receiver: &entry.identity };
    let top = steps.working(entry.top, notarized.then_some(ends), count);
    let mut text = writer::key_message_head(&entry.identity, own, notarized);
    for key in &request.keys {
        let own_name = key.own_name().flatten();
        let upper_name = (key.flags & 4 != 0).then_some(&entry.name[..]);
        let contents = writer::key_contents(top.seal(key.key), key.marked(), own_name.as_deref(), upper_name);
        writer::field(&mut text, "KD", &contents);
    }
    let bare: Vec<u64> = request.keys.iter().map(|key| key.key).collect();
    match request.iv_kind {
        1 => writer::field(&mut text, "IV", format!("P{:016X}", request.iv).as_bytes()),
        2 => {
            let sealed = keys::encipher(steps.iv_key(&bare), request.iv);
            writer::field(&mut text, "IV", format!("E{sealed:016X}").as_bytes());
        }
        _ => {}
    }
    if request.date_flag == 1 {
        writer::field(&mut text, "EDK", &request.date);
    }
    writer::field(&mut text, "CTP", count.to_string().as_bytes());
    writer::authenticated(text, steps.mac_key(&bare))
}

/// What a request asks for, in words.
fn kind(request: &Request, top: Top) -> String {
    let keys = if request.keys.len() == 1 { "one key" } else { "two keys" };
    let iv = ["", ", IV plain", ", IV enciphered"][usize::from(request.iv_kind)];
    let date = if request.date_flag == 1 { ", EDK" } else { "" };
    format!("{keys}{iv}{date}{}", notary_words(request.notarized == 1, top))
}

pub fn build_rsi(case: &Case) -> Result<Done, Refusal> {
    let table = lent_table(case)?;
    reply_room(case)?;
    table.entry(case.slice("partner")).ok_or(NO_PARTNER)?;
    let service = case.slice("service");
    let known = SERVICES.iter().find(|known| known.as_bytes() == service).ok_or(Refusal(12, "no legal SVR"))?;
    Ok(Done::wrote(&format!("SVR/{known}"), writer::rsi(case.slice("partner"), &table.own, service)))
}
