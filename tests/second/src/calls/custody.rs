//! Start, load, remove, give up and ask for an entry.

use super::{lent_table, refuse, reply_room, Done, Refusal, NO_PARTNER};
use crate::case::Case;
use crate::image;
use crate::keys::Top;
use crate::reader::is_name;
use crate::table::{Entry, Table, BROKEN, WAITING};

/// 6 where a new image might not fit.
fn image_room(case: &Case) -> Result<(), Refusal> {
    refuse(case.slice("out").len() < image::LARGEST, 6, "room under 10,065")
}

/// Start: 6, 10.
pub fn start(case: &Case) -> Result<Done, Refusal> {
    image_room(case)?;
    let own = case.slice("own");
    refuse(!is_name(own), 10, "identity malformed")?;
    Ok(Done::wrote("started", image::write(&Table::empty(own))))
}

/// A top key of 8 or 16 bytes.
fn top_key(bytes: &[u8]) -> Option<Top> {
    let half = |bytes: &[u8]| bytes.iter().fold(0, |number, &byte| number << 8 | u64::from(byte));
    match bytes.len() {
        8 => Some(Top::Single(half(bytes))),
        16 => Some(Top::Pair(half(&bytes[..8]), half(&bytes[8..]))),
        _ => None,
    }
}

/// Load: 13, 6, 10, 12, 11, 9.
pub fn load(case: &Case) -> Result<Done, Refusal> {
    let mut table = lent_table(case)?;
    image_room(case)?;
    let (identity, name) = (case.slice("partner"), case.slice("name"));
    refuse(!is_name(identity), 10, "identity malformed")?;
    refuse(identity == table.own, 10, "identity our own")?;
    refuse(table.entry(identity).is_some(), 10, "identity taken")?;
    refuse(!is_name(name), 12, "key name")?;
    let top = top_key(case.slice("key")).ok_or(Refusal(12, "key not of 8 or 16 bytes"))?;
    refuse(!top.odd(), 11, "top key")?;
    let free = table.slots.iter().position(Option::is_none).ok_or(Refusal(9, "64 entries in use"))?;
    table.slots[free] = Some(Entry::loaded(identity, name, top));
    let what = if matches!(top, Top::Single(_)) { "single key" } else { "pair" };
    Ok(Done::wrote(what, image::write(&table)))
}

/// Remove: 13, 6, 3.
pub fn remove(case: &Case) -> Result<Done, Refusal> {
    let mut table = lent_table(case)?;
    image_room(case)?;
    let gone = table.entry(case.slice("partner")).ok_or(NO_PARTNER)?.clone();
    table.slots.iter_mut().filter(|slot| slot.as_ref() == Some(&gone)).for_each(|slot| *slot = None);
    Ok(Done::wrote(&format!("in phase {}", gone.phase), image::write(&table)))
}

/// Give up: 13, 3, 5.
pub fn give_up(case: &Case) -> Result<Done, Refusal> {
    let mut table = lent_table(case)?;
    let entry = table.entry_mut(case.slice("partner")).ok_or(NO_PARTNER)?;
    refuse(entry.phase != WAITING, 5, "nothing is waiting")?;
    entry.phase = BROKEN;
    entry.outgoing.clear();
    Ok(Done { table: Some(table), ..Done::wrote("given up", Vec::new()) })
}

/// Ask for an entry: 13, 6, 3.
pub fn ask(case: &Case) -> Result<Done, Refusal> {
    let table = lent_table(case)?;
    reply_room(case)?;
    let entry = table.entry(case.slice("partner")).ok_or(NO_PARTNER)?;
    Ok(Done::wrote(&format!("in phase {}", entry.phase), image::body(entry)))
}
