//! What holds after every call and at every moment on the line, checked without playing the card.

use super::world::Card;
use crate::case::{Call, Case, Outcome};
use crate::image;
use crate::letters;
use crate::reader::{self, Body};
use crate::table::{Entry, CONFIRMED, WAITING};

/// What of this call's outcome contradicts what holds of every call.
pub fn call(case: &Case, outcome: &Outcome) -> Vec<String> {
    let name = case.call.name();
    let told = |what: &str| format!("{name} answers {} and {what}", outcome.answer);
    let mut found = Vec::new();
    let room = case.room();
    let changed = |place: usize| case.slices[place] != outcome.slices[place];
    let lent = case.call.lent();
    let writable = |place: &usize| ["report", "image"].contains(&lent[*place]) || Some(*place) == room;
    found
        .extend((0..lent.len()).filter(|place| !writable(place) && changed(*place)).map(|_| told("changed its input")));
    if outcome.answer != 0 && case.place("image").is_some_and(changed) {
        found.push(told("changed the table"));
    }
    let length = outcome.length();
    match outcome.answer {
        0 => {}
        4 if outcome.letters() != 0 && outcome.report()[4..].iter().all(|byte| *byte == 0) => {}
        4 => found.push(told("reports no letters, or more than letters and length")),
        _ if outcome.report().iter().any(|byte| *byte != 0) => found.push(told("reports something")),
        _ if room.is_some_and(changed) => found.push(told("wrote to the reply")),
        _ => {}
    }
    if let Some(room) = room {
        match (case.slices[room].get(length..), outcome.slices[room].get(length..)) {
            (Some(before), Some(after)) if before == after => {}
            _ => found.push(told("wrote past the length that it reports")),
        }
    }
    let wrong = match case.call {
        Call::Receive => received(case, outcome),
        Call::BuildKsm | Call::BuildRsi if outcome.answer == 0 => built(case, outcome),
        _ => None,
    };
    found.extend(wrong.map(told));
    found
}

/// What of a built message is wrong: it is not of the class asked for, not to the partner, or NOS is not as asked for.
fn built(case: &Case, outcome: &Outcome) -> Option<&'static str> {
    let reply = outcome.slices[case.room()?].get(..outcome.length())?;
    let message = reader::read(reply).filter(|message| message.receiver == case.slice("partner"));
    match (case.call, message.map(|message| message.body)) {
        (Call::BuildKsm, Some(Body::Ksm(keys))) => {
            let asked = case.slice("request").last() == Some(&1);
            (keys.notarized != asked).then_some("has NOS unasked, or has none")
        }
        (Call::BuildRsi, Some(Body::Rsi { .. })) => None,
        _ => Some("wrote no such message to the partner"),
    }
}

/// What of a received message's outcome is wrong: another entry changed, or a reply that is not the class it must be.
fn received(case: &Case, outcome: &Outcome) -> Option<&'static str> {
    let (before, after) = (image::read(case.slice("image")).ok()?, image::read(&outcome.slices[0]).ok()?);
    let text = reader::read(case.slice("text"));
    let originator = text.as_ref().map_or(&b""[..], |message| message.originator);
    let mut slots = before.slots.iter().zip(&after.slots);
    let partner = |slot: &Option<Entry>| slot.as_ref().is_some_and(|entry| entry.identity == originator);
    if before.own != after.own || slots.any(|(before, after)| before != after && !partner(before)) {
        return Some("changed what is not the partner's");
    }
    let reply = outcome.slices[2].get(..outcome.length())?;
    let waiting = before.entry(originator).is_some_and(|entry| entry.phase == WAITING);
    let (class, answer) = (text.map(|message| message.body), reader::read(reply));
    let to_originator =
        answer.as_ref().is_some_and(|reply| reply.receiver == originator && reply.originator == before.own);
    match (outcome.answer, class, answer.map(|reply| reply.body)) {
        (0, Some(Body::Ksm(_)), Some(Body::Rsm { .. })) if to_originator => None,
        (0, Some(Body::Ksm(_)), _) => Some("has no RSM for a key message"),
        (4, Some(Body::Esm { .. }), _) => Some("answers an ESM"),
        (4, _, Some(Body::Esm { letters, counts })) if to_originator && letters == outcome.letters() => {
            counts.is_some_and(|_| letters & letters::P == 0).then_some("tells counts without P")
        }
        (4, _, _) => Some("has no ESM with its letters"),
        (0, Some(Body::Rsm { .. } | Body::Esm { .. }), _) if !waiting => Some("takes it while nothing is waiting"),
        (0, _, _) if !reply.is_empty() => Some("replies where no reply belongs"),
        _ => None,
    }
}

/// Where a card calls keys confirmed that its partner does not hold, with their names and under the same count.
pub fn conclusions(cards: &[Card]) -> Vec<String> {
    let pairs = cards.iter().flat_map(|sender| cards.iter().map(move |receiver| (sender, receiver)));
    pairs.filter(|(sender, receiver)| sender.identity != receiver.identity).flat_map(conclusion).collect()
}

fn conclusion((sender, receiver): (&Card, &Card)) -> Vec<String> {
    let held = (sender.table.entry(&receiver.identity), receiver.table.entry(&sender.identity));
    let (Some(ours), Some(theirs)) = held else {
        return vec!["a partner's entry is gone".to_string()];
    };
    let mut found = Vec::new();
    if ours.phase == CONFIRMED && ours.outgoing != theirs.incoming {
        found.push("keys are called confirmed that the partner does not hold".to_string());
    }
    if ours.phase == CONFIRMED && ours.next_send != theirs.expected {
        found.push(format!("confirmed with next send {} and expected {}", ours.next_send, theirs.expected));
    }
    found
}
